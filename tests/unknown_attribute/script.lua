local file <close> = 1
