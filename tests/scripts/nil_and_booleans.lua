-- nil and false alone are false.
print(nil, true, false)
print(not nil, not false, not true, not 0, not "", not {})
print(nil == false, false == false, nil == nil, true == 1)
