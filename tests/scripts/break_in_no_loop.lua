break -- Differs from Lua in the text and the status.
