-- An integer is shown as its text.
error(42)
