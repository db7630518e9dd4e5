(e:message
Axmlns:e http://example.org/invoices/envelope
Axmlns:c http://example.org/invoices/common
Axmlns http://example.org/invoices/invoice
Aversion 2
Atest true
(e:head
(e:to
-NL-0002
)e:to
(e:from
-4000000000017
)e:from
(e:sent
-2026 11 23 22 59 60 Z
)e:sent
(e:number
-M-1
)e:number
(e:extension
Aowner depot
(d:gate
Axmlns:d http://example.org/depot
Ad:side left
-3
)d:gate
)e:extension
)e:head
(invoice
Anumber 2026-17
Acurrency EUR
(issued
-2026 11 23
)issued
(supplied-within
(c:from
-2026 11 1
)c:from
(c:until
-2026 11 20
)c:until
)supplied-within
(seller
Anumber 4000000000017
(c:name
-Mill
)c:name
(c:address
Acountry NL
(c:street
-Water Lane
)c:street
(c:house
-4b
)c:house
(c:postcode
-1000
)c:postcode
(c:place
-Delft
)c:place
)c:address
(c:tax-number
Acountry NL
-NL001
)c:tax-number
(c:contact
Apurpose invoices complaints
(c:person
-D. Vos
)c:person
(c:mail
-d@mill.example
)c:mail
)c:contact
)seller
(buyer
(c:address
Acountry BE
(c:line
-Bakery
)c:line
(c:line
-Ghent
)c:line
)c:address
(c:trading-as
-The Loaf
)c:trading-as
(c:name
-Loaf bv
)c:name
)buyer
(c:reference
Akind order
Anumber O-9
Aline 1
(c:dated
-2026 10 30
)c:dated
)c:reference
(line
Anumber 1
(article
Aseller F-5
-Flour
)article
(c:tax
Akind value-added
Arate 9000
)c:tax
(price
-120
)price
(quantity
Aunit kilogram
-5500 / 1000
)quantity
(c:allowance
Areason volume
Arate 2000
(c:base
-660
)c:base
(c:amount
-13
)c:amount
)c:allowance
(net
Acurrency EUR
-647
)net
)line
(totals
(lines
-647
)lines
(net
-647
)net
(c:tax-total
(c:tax
Akind value-added
Arate 9000
)c:tax
(c:base
-647
)c:base
(c:due
-58
)c:due
)c:tax-total
(gross
-705
)gross
(paid
Aon 2026 11 20
-100
)paid
(payable
-605
)payable
)totals
(c:terms
(c:transfer
Aaccount NL00BANK0000000001
Abank BANKNL2A
(c:purpose
-2026-17
)c:purpose
)c:transfer
(c:days
-30
)c:days
(c:discount
Arate 1000
Adays 8
)c:discount
)c:terms
(c:remark
Axml:lang en
Afor buyer
-Thank you
(c:break
)c:break
-for your trade.
)c:remark
)invoice
)e:message
