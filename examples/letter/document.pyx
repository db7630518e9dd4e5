(letter
Ato Ada
(title
-On engines
)title
(body
-They count.
)body
)letter
