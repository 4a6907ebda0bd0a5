# make test: the gate. make demo: prove and build `line`, and play a script.
# make bench: how fast the proved code is, beside C in the same run. make vectors, make samples: expected outputs, written anew by other implementations.
CC = gcc
OUT := bench/out
SSL := $(shell echo '\#include <openssl/evp.h>' | $(CC) -E - >/dev/null 2>&1 && echo yes)

.PHONY: test demo bench vectors samples

test:
	@tools/gate

demo: | $(OUT)
	@cd crates/line && rt run <../../examples/first.line 2>../../$(OUT)/demo.log || { tail ../../$(OUT)/demo.log; exit 1; }

vectors:
	python3 tools/vectors.py
	python3 tools/vm/cases.py

samples:
	python3 tools/samples.py

bench: $(OUT)/crypto $(if $(SSL),$(OUT)/seal) crates/vm_run/out/vm_run
ifeq ($(SSL),yes)
	@echo "-- beside OpenSSL with its special instructions"
	@$(OUT)/crypto
	@echo "-- beside OpenSSL without them"
	@OPENSSL_ia32cap=0:0 $(OUT)/crypto
	@echo "-- to seal and open a message, beside OpenSSL with its special instructions, and without them"
	@$(OUT)/seal
	@OPENSSL_ia32cap=0:0 $(OUT)/seal
else
	@echo "-- no OpenSSL here (libssl-dev): beside plain C alone"
	@$(OUT)/crypto
endif
	@echo "-- the virtual machine beside a switch loop in C"
	@python3 bench/vm/bench.py

$(OUT):
	@mkdir -p $@

crates/vm_run/out/vm_run: crates/vm/src/*.rt crates/vm_run/src/*.rt | $(OUT)
	@cd crates/vm_run && rt run >../../$(OUT)/vm.log 2>&1 || { tail ../../$(OUT)/vm.log; exit 1; }

crates/cryptoffi/out/libcryptoffi.a: crates/cryptoffi/src/*.rt crates/sha256/src/*.rt crates/hmac/src/*.rt crates/chacha20/src/*.rt | $(OUT)
	@cd crates/cryptoffi && rt lib >../../$(OUT)/lib.log 2>&1 || { tail ../../$(OUT)/lib.log; exit 1; }

crates/sealffi/out/libsealffi.a: crates/sealffi/src/*.rt crates/seal/src/*.rt crates/seal/src/way/*.rt | $(OUT)
	@cd crates/sealffi && rt lib >../../$(OUT)/lib.log 2>&1 || { tail ../../$(OUT)/lib.log; exit 1; }

$(OUT)/crypto: bench/crypto/*.c bench/crypto/plain.h crates/cryptoffi/out/libcryptoffi.a
	$(CC) -O3 -Wall $(if $(SSL),-DWITH_OPENSSL) -o $@ bench/crypto/*.c crates/cryptoffi/out/libcryptoffi.a $(if $(SSL),-lcrypto)

$(OUT)/seal: bench/seal/bench.c crates/sealffi/out/libsealffi.a
	$(CC) -O3 -Wall -Wno-deprecated-declarations -o $@ bench/seal/bench.c crates/sealffi/out/libsealffi.a -lcrypto
