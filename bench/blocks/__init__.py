"""What bench/tables writes between the markers of the pages: each block's lines, made of the results."""
