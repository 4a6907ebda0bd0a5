; Never ends and never asks: each turn only goes on.
again:  jump again
