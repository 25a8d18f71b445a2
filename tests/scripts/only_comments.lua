-- Nothing but comments, of each form.
--[[ one
that is long ]]
--[==[ with ]] and ]=] in it ]==]
--[ a short one
--
