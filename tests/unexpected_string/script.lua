x = 1 "b\n"
