-- Semicolons are empty statements.
;;;
local a = 1;
;print(a);;
do ; end
print("end");
