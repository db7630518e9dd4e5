(list
Axmlns http://example.org/list
Axmlns:m http://example.org/marks
(item
Am:number 7
-none
)item
(item
)item
)list
