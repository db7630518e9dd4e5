(server
Axmlns http://example.org/server
Aversion 3
Aname front
(listener
Aname web
Aaddress any
Aport 80
(plain
Aprotocol http/1 http/2
)plain
)listener
(listener
Aname safe
Aenabled 1
Aaddress www.example.org
Aport 443
(secure
Aleast-version 1.3
(certificate
Ahosts www.example.org example.org
(chain
-/etc/chain
)chain
(key
Apassword-variable PASS
-/etc/key
)key
)certificate
(clients
Aasked optional
(authority
-/etc/ca
)authority
)clients
(cipher
-AES
)cipher
)secure
)listener
(routes
(group
Aprefix /shop
(filters
(cache
Afor 10 min
)cache
(header
Aname X-Shop
Aset 1
)header
(compress
Alevel 6
)compress
)filters
(route
(when
(all
(method
-GET HEAD
)method
(not
(path
-*.php
)path
)not
)all
)when
(proxy
(backend
Aaddress local
Aport 8080
Aweight 3
)backend
(backend
Aaddress 10.0.0.2
Aport 8080
Aspare true
)backend
(balance
Aby least-busy
(check
Apath /alive
Aevery 5
)check
)balance
)proxy
)route
(route
Aexactly /old
(redirect
Astatus 301
Ato /new
)redirect
)route
)group
(route
Aprefix /mail
Aenabled false
(run
Amodule mailer
(parameter
Aname from
-shop
)parameter
)run
)route
(otherwise
(files
Apath /var/www
Aindex index.html
(type
Asuffix rnc
-text/plain
)type
)files
)otherwise
)routes
(modules
(module
Aname pages
Athreads 4
Akind templates
(t:folder
Axmlns:t http://example.org/server/templates
Apath /t
)t:folder
(t:value
Axmlns:t http://example.org/server/templates
Aname title
-Shop
)t:value
)module
(module
Aname find
Akind search
(stop-words
-the a an
)stop-words
(weights
Atitle 9
)weights
(index
Apath /i
)index
(language
-en
)language
)module
(module
Aname mailer
Akind other
Am:mode slow
Axmlns:m http://example.org/mailer
(m:host
Aport 25
-mail
)m:host
)module
)modules
(access
(rules
(allow
Aeverybody true
Aroutes shop
)allow
(deny
Agroup guests
Adays sat sun
(from
Aaddress 10.0.0.0
Abits 8
)from
(because
Axml:lang en
-closed
)because
)deny
)rules
(users
(group
Aname guests
)group
(user
Aname ida
Agroups guests
(password
Ahash argon2
-abc
)password
)user
)users
)access
(logging
Alevel info
(log
Aname all
Aeverything true
(remote
Aaddress log.example.org
Aport 514
Aprotocol udp
)remote
(format
Alines text
(template
-at 
(field
-time
)field
-: 
(field
-path
)field
)template
)format
)log
(log
Aname file
Aof errors access
Alevel error
(file
Apath /var/log
(rotation
Aevery 1 d
Aat 100 MiB
Akeep 7
Acompress true
)rotation
)file
)log
)logging
(limits
(body
-1 MiB
)body
(connections
-1000
)connections
(timeouts
Aidle never
)timeouts
)limits
(variables
(variable
Aname PASS
(from
Aenvironment KEY_PASS
)from
)variable
)variables
)server
