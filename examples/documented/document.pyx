(form
Afield2 value 2
Afield5 value 5
Afield8 value 8
Afield11 value 11
Afield14 value 14
Afield17 value 17
Afield20 value 20
Afield23 value 23
Afield26 value 26
Afield29 value 29
Afield32 value 32
Afield35 value 35
Afield38 value 38
Afield41 value 41
Afield44 value 44
Afield47 value 47
Afield50 value 50
Afield53 value 53
Afield56 value 56
Afield59 value 59
Afield62 value 62
Afield65 value 65
Afield68 value 68
Afield71 value 71
Afield74 value 74
Afield77 value 77
Afield80 value 80
Afield83 value 83
Afield86 value 86
Afield89 value 89
Afield92 value 92
Afield95 value 95
Afield98 value 98
Afield101 value 101
Afield104 value 104
Afield107 value 107
Afield110 value 110
Afield113 value 113
Afield116 value 116
Afield119 value 119
Afield122 value 122
Afield125 value 125
Afield128 value 128
Afield131 value 131
Afield134 value 134
Afield137 value 137
Afield140 value 140
Afield143 value 143
Afield146 value 146
Afield149 value 149
Afield152 value 152
Afield155 value 155
Afield158 value 158
Afield161 value 161
Afield164 value 164
Afield167 value 167
Afield170 value 170
Afield173 value 173
Afield176 value 176
Afield179 value 179
Afield182 value 182
Afield185 value 185
Afield188 value 188
Afield191 value 191
Afield194 value 194
Afield197 value 197
(field1
-value 1
)field1
(field3
)field3
(field4
-value 4
)field4
(field7
-value 7
)field7
(field9
)field9
(field10
-value 10
)field10
(field13
-value 13
)field13
(field15
)field15
(field16
-value 16
)field16
(field19
-value 19
)field19
(field21
)field21
(field22
-value 22
)field22
(field25
-value 25
)field25
(field27
)field27
(field28
-value 28
)field28
(field31
-value 31
)field31
(field33
)field33
(field34
-value 34
)field34
(field37
-value 37
)field37
(field39
)field39
(field40
-value 40
)field40
(field43
-value 43
)field43
(field45
)field45
(field46
-value 46
)field46
(field49
-value 49
)field49
(field51
)field51
(field52
-value 52
)field52
(field55
-value 55
)field55
(field57
)field57
(field58
-value 58
)field58
(field61
-value 61
)field61
(field63
)field63
(field64
-value 64
)field64
(field67
-value 67
)field67
(field69
)field69
(field70
-value 70
)field70
(field73
-value 73
)field73
(field75
)field75
(field76
-value 76
)field76
(field79
-value 79
)field79
(field81
)field81
(field82
-value 82
)field82
(field85
-value 85
)field85
(field87
)field87
(field88
-value 88
)field88
(field91
-value 91
)field91
(field93
)field93
(field94
-value 94
)field94
(field97
-value 97
)field97
(field99
)field99
(field100
-value 100
)field100
(field103
-value 103
)field103
(field105
)field105
(field106
-value 106
)field106
(field109
-value 109
)field109
(field111
)field111
(field112
-value 112
)field112
(field115
-value 115
)field115
(field117
)field117
(field118
-value 118
)field118
(field121
-value 121
)field121
(field123
)field123
(field124
-value 124
)field124
(field127
-value 127
)field127
(field129
)field129
(field130
-value 130
)field130
(field133
-value 133
)field133
(field135
)field135
(field136
-value 136
)field136
(field139
-value 139
)field139
(field141
)field141
(field142
-value 142
)field142
(field145
-value 145
)field145
(field147
)field147
(field148
-value 148
)field148
(field151
-value 151
)field151
(field153
)field153
(field154
-value 154
)field154
(field157
-value 157
)field157
(field159
)field159
(field160
-value 160
)field160
(field163
-value 163
)field163
(field165
)field165
(field166
-value 166
)field166
(field169
-value 169
)field169
(field171
)field171
(field172
-value 172
)field172
(field175
-value 175
)field175
(field177
)field177
(field178
-value 178
)field178
(field181
-value 181
)field181
(field183
)field183
(field184
-value 184
)field184
(field187
-value 187
)field187
(field189
)field189
(field190
-value 190
)field190
(field193
-value 193
)field193
(field195
)field195
(field196
-value 196
)field196
(field199
-value 199
)field199
)form
