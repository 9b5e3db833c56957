"""The commands, one module each; the files in tools/ start them."""
