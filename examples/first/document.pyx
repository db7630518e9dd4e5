(a
Ax 1
(b
)b
)a
