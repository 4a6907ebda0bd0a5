#!/usr/bin/env python3
"""Writes crates/vectors/stdout: the published vectors, and a table of lengths 0 to 300.

The answers of the published vectors stand here as the RFCs have them, and are held against
hashlib, hmac and the package `cryptography`; the table comes from those alone.
"""
import hashlib
import hmac
from cryptography.hazmat.primitives.ciphers import Cipher, algorithms


def chacha20(key, counter, nonce, text):
    head = counter.to_bytes(4, "little") + nonce
    return Cipher(algorithms.ChaCha20(key, head), mode=None).encryptor().update(text)


def sha(message):
    return hashlib.sha256(message).digest()


def tag(key, message):
    return hmac.new(key, message, hashlib.sha256).digest()


IETF = (
    b'Any submission to the IETF intended by the Contributor for publication as all or part of an IETF '
    b'Internet-Draft or RFC and any statement made within the context of an IETF activity is considered an '
    b'"IETF Contribution". Such statements include oral statements in IETF sessions, as well as written and '
    b'electronic communications made at any time or place, which are addressed to'
)
SUNSCREEN = (
    b"Ladies and Gentlemen of the class of '99: If I could offer you only one tip for the future, sunscreen "
    b"would be it."
)
JABBERWOCKY = (
    b"'Twas brillig, and the slithy toves\nDid gyre and gimble in the wabe:\n"
    b"All mimsy were the borogoves,\nAnd the mome raths outgrabe."
)
LONG = bytes.fromhex(
    "8326754e2277372f4fc12b20527afef04d8a056971b11ad57123a7c137760000d7bef6f3c1f7a9083aa39d810db31077"
    "7dab8b1e7f02b84a26c773325f8b2374de7a4b5a58cb5c5cf35bcee6fb946e5bd694fa593a8beb3f9d6592ecedaa66ca"
    "82a29d0c51bcf9336230e5d784e4c0a43f8d79a30a165cbabe452b774b9c7109a97d138f129228966f6c0adc106aad5a"
    "9fdd30825769b2c671af6759df28eb393d54d6"
)
COUNT = bytes(range(32))
ZERO = bytes(32)
ONE = bytes(31) + b"\x01"
NONE = bytes(12)
TWO = bytes(11) + b"\x02"

# RFC 6234, section 8.5: the messages of whole bytes
SHA256 = [
    ("1", b"abc", "ba7816bf8f01cfea414140de5dae2223b00361a396177a9cb410ff61f20015ad"),
    ("2", b"abcdbcdecdefdefgefghfghighijhijkijkljklmklmnlmnomnopnopq",
     "248d6a61d20638b8e5c026930c3e6039a33ce45964ff2167f6ecedd419db06c1"),
    ("3", b"a" * 1000000, "cdc76e5c9914fb9281a1c7e284d73e67f1809a48a497200e046d39ccc7112cd0"),
    ("4", b"01234567" * 80, "594847328451bdfa85056225462cc1d867d877fb388df0ce35f25ab5562bfbb5"),
    ("6", b"\x19", "68aa2e2ee5dff96e3355e6c7ee373e3d6a4e17f75f9518d843709c0c9bc3e3d4"),
    ("8", bytes.fromhex("e3d72570dcdd787ce3887ab2cd684652"),
     "175ee69b02ba9b58e2b0a5fd13819cea573f3940a94f825128cf4209beabb4e8"),
    ("10", LONG, "97dbca7df46d62c8a422c941dd7e835b8ad3361763f7e9b2d95f4f0da6e1ccbc"),
]
# RFC 4231, section 4; the fifth tag is cut to 128 bits
HMAC = [
    ("1", b"\x0b" * 20, b"Hi There", "b0344c61d8db38535ca8afceaf0bf12b881dc200c9833da726e9376c2e32cff7"),
    ("2", b"Jefe", b"what do ya want for nothing?",
     "5bdcc146bf60754e6a042426089575c75a003f089d2739839dec58b964ec3843"),
    ("3", b"\xaa" * 20, b"\xdd" * 50, "773ea91e36800e46854db8ebd09181a72959098b3ef8c122d9635514ced565fe"),
    ("4", bytes(range(1, 26)), b"\xcd" * 50,
     "82558a389a443c0ea4cc819899f2083a85f0faa3e578f8077a2e3ff46729665b"),
    ("5", b"\x0c" * 20, b"Test With Truncation", "a3b6167473100ee06e0c796c2955552b"),
    ("6", b"\xaa" * 131, b"Test Using Larger Than Block-Size Key - Hash Key First",
     "60e431591ee0b67f0d8a26aacbf5b77f8e0bc6213728c5140546040f0ee37f54"),
    ("7", b"\xaa" * 131,
     b"This is a test using a larger than block-size key and a larger than block-size data. "
     b"The key needs to be hashed before being used by the HMAC algorithm.",
     "9b09ffa71b942fcb27635fbcd5b0e944bfdc63644f0713938a7f51535c3a35e2"),
]
# RFC 8439, sections 2.3.2 and 2.4.2, and appendix A.1 and A.2
CHACHA20 = [
    ("2.3.2", COUNT, 1, bytes.fromhex("000000090000004a00000000"), bytes(64),
     "10f1e7e4d13b5915500fdd1fa32071c4c7d1f4c733c068030422aa9ac3d46c4e"
     "d2826446079faa0914c2d705d98b02a2b5129cd1de164eb9cbd083e8a2503c4e"),
    ("2.4.2", COUNT, 1, bytes.fromhex("000000000000004a00000000"), SUNSCREEN,
     "6e2e359a2568f98041ba0728dd0d6981e97e7aec1d4360c20a27afccfd9fae0bf91b65c5524733ab8f593dabcd62b357"
     "1639d624e65152ab8f530c359f0861d807ca0dbf500d6a6156a38e088a22b65e52bc514d16ccf806818ce91ab7793736"
     "5af90bbf74a35be6b40b8eedf2785e42874d"),
    ("A.1.1", ZERO, 0, NONE, bytes(64),
     "76b8e0ada0f13d90405d6ae55386bd28bdd219b8a08ded1aa836efcc8b770dc7"
     "da41597c5157488d7724e03fb8d84a376a43b8f41518a11cc387b669b2ee6586"),
    ("A.1.2", ZERO, 1, NONE, bytes(64),
     "9f07e7be5551387a98ba977c732d080dcb0f29a048e3656912c6533e32ee7aed"
     "29b721769ce64e43d57133b074d839d531ed1f28510afb45ace10a1f4b794d6f"),
    ("A.1.3", ONE, 1, NONE, bytes(64),
     "3aeb5224ecf849929b9d828db1ced4dd832025e8018b8160b82284f3c949aa5a"
     "8eca00bbb4a73bdad192b5c42f73f2fd4e273644c8b36125a64addeb006c13a0"),
    ("A.1.4", b"\x00\xff" + bytes(30), 2, NONE, bytes(64),
     "72d54dfbf12ec44b362692df94137f328fea8da73990265ec1bbbea1ae9af0ca"
     "13b25aa26cb4a648cb9b9d1be65b2c0924a66c54d545ec1b7374f4872e99f096"),
    ("A.1.5", ZERO, 0, TWO, bytes(64),
     "c2c64d378cd536374ae204b9ef933fcd1a8b2288b3dfa49672ab765b54ee27c7"
     "8a970e0e955c14f3a88e741b97c286f75f8fc299e8148362fa198a39531bed6d"),
    ("A.2.2", ONE, 1, TWO, IETF,
     "a3fbf07df3fa2fde4f376ca23e82737041605d9f4f4f57bd8cff2c1d4b7955ec2a97948bd3722915c8f3d337f7d37005"
     "0e9e96d647b7c39f56e031ca5eb6250d4042e02785ececfa4b4bb5e8ead0440e20b6e8db09d881a7c6132f420e527950"
     "42bdfa7773d8a9051447b3291ce1411c680465552aa6c405b7764d5e87bea85ad00f8449ed8f72d0d662ab052691ca66"
     "424bc86d2df80ea41f43abf937d3259dc4b2d0dfb48a6c9139ddd7f76966e928e635553ba76c5c879d7b35d49eb2e62b"
     "0871cdac638939e25e8a1e0ef9d5280fa8ca328b351c3c765989cbcf3daa8b6ccc3aaf9f3979c92b3720fc88dc95ed84"
     "a1be059c6499b9fda236e7e818b04b0bc39c1e876b193bfe5569753f88128cc08aaa9b63d1a16f80ef2554d7189c411f"
     "5869ca52c5b83fa36ff216b9c1d30062bebcfd2dc5bce0911934fda79a86f6e698ced759c3ff9b6477338f3da4f9cd85"
     "14ea9982ccafb341b2384dd902f3d1ab7ac61dd29c6f21ba5b862f3730e37cfdc4fd806c22f221"),
    ("A.2.3", bytes.fromhex("1c9240a5eb55d38af333888604f6b5f0473917c1402b80099dca5cbc207075c0"), 42, TWO, JABBERWOCKY,
     "62e6347f95ed87a45ffae7426f27a1df5fb69110044c0d73118effa95b01e5cf166d3df2d721caf9b21e5fb14c616871"
     "fd84c54f9d65b283196c7fe4f60553ebf39c6402c42234e32a356b3e764312a61a5532055716ead6962568f87d3f3f77"
     "04c6a8d1bcd1bf4d50d6154b6da731b187b58dfd728afa36757a797ac188d1"),
]


def lines():
    for name, message, answer in SHA256:
        assert sha(message).hex() == answer, name
        yield f"sha256 {name} {answer}"
    for name, key, message, answer in HMAC:
        assert tag(key, message).hex().startswith(answer), name
        yield f"hmac {name} {answer}"
    for name, key, counter, nonce, text, answer in CHACHA20:
        assert chacha20(key, counter, nonce, text).hex() == answer, name
        yield f"chacha20 {name} {answer}"
    last = chacha20(ZERO, 2**32 - 1, NONE, bytes(64))
    yield f"chacha20 last {last.hex()}"
    yield "chacha20 past refused " + "00" * 65
    # Byte i of the table's text is 7 i + 3; the key of length n is the text's front, the cipher's key and nonce are fixed.
    text = bytes((7 * i + 3) % 256 for i in range(300))
    for n in range(301):
        part = text[:n]
        cipher = chacha20(COUNT, n, TWO, part)
        yield f"{n} {sha(part).hex()} {tag(part, part).hex()} {sha(cipher).hex()}"


if __name__ == "__main__":
    with open("crates/vectors/stdout", "w", encoding="ascii") as out:
        for line in lines():
            print(line, file=out)
