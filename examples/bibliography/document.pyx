(catalogue
Axmlns http://example.org/bibliography
Axmlns:x http://example.org/shop
Aversion 1.1
Axml:lang en
Ax:stock 7
(about
(compiler
Aref kane
)compiler
(title
-Books on 
(emphasis
-schemas
)emphasis
- and 
(foreign
Axml:lang fr
-grammaires
)foreign
)title
(remark
-Kept up to date at 
(link
Ato http://example.org/kept
-its place
)link
-.
)remark
(compiled
-2026 11
)compiled
)about
(people
(person
Aid kane
(given
-Ida
)given
(particle
-van
)particle
(family
-Kane
)family
(born
-1951 4 9
)born
)person
(person
Aid orbis
(name
-Orbis the Elder
)name
(died
Aabout true
--310
)died
(note
-Known by one work.
)note
)person
(body
Aid reed
Akind publisher
(name
-Reed and Sons
)name
(founded
-1901
)founded
(place
-Leiden
)place
)body
)people
(works
(book
Aid grammars
Alanguage en
Atranslated-from fr nl
(title
-Of Grammars
)title
(subtitle
-a
(sub
-n
)sub
- and b
(sup
-n
)sup
)subtitle
(copies
(copy
Anumber 1
Ashelf top
)copy
(copy
Anumber 2
Abound true
(lent
(to
Aunlisted yes
(name
-A. Reader
)name
)to
(on
-2026 1 31
)on
)lent
(condition
-worn
)condition
)copy
)copies
(author
Aref kane
)author
(translator
Afrom fr
Aunlisted yes
(name
-N. N.
)name
)translator
(edition
Anumber 2
Arevised 1
)edition
(published
Aby reed
(place
-Leiden
)place
(on
-1988
)on
)published
(abstract
(p
-What a grammar is.
)p
(items
Aordered true
(item
-words
)item
(item
(p
-sentences
)p
)item
)items
)abstract
(isbn
-90-000-0000-1
)isbn
(subjects
(subject
Ascheme own
-grammars
)subject
)subjects
)book
(series
Aid letters
Aissn 0000-0000
(title
-Letters
)title
(editor
Aref kane
)editor
(article
Aid onions
(title
-On 
(code
-*
)code
)title
(author
Aref orbis
)author
(journal
Aissn 1111-1111
(name
-Herbs
)name
(volume
-3
)volume
(year
-1999
)year
)journal
(pages
-10 19
)pages
(doi
-10.1000/1
)doi
)article
(thesis
Aid t
Adegree doctor
(title
-Mixed content
)title
(author
Aref kane
)author
(supervisor
Aunlisted yes
(name
-B
)name
)supervisor
(school
Aref reed
)school
(defended
-1979 5
)defended
)thesis
)series
(web-page
Aid w
(title
-A page with 
(m:math
Axmlns:m http://www.w3.org/1998/Math/MathML
Amode x
(m:mi
-a
)m:mi
-1
)m:math
)title
(address
-http://example.org
)address
(seen
-2025 12 24
)seen
)web-page
)works
(shelves
(shelf
Aid room
Akind room
(title
-The room
)title
(shelf
Aid top
Akind board
Acapacity 40
)shelf
)shelf
)shelves
)catalogue
