"""Reports as pictures: what tools/picture is made of."""
