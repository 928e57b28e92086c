"""What texts of addresses, states and locks read as, worked out by hand from RFC 8259, from
Terraform's state format, version 4, and from docs/MODEL.md: the rows of test_readings.py. A row is
a line, `GIVEN => WANTED`."""

# Texts, and each one stripped.
STRIPPED = r''' => ''
a => 'a'
a[0].b["x\"]"] => 'a.b'
a[00] => 'a'
a["é"].b => 'a.b'
a["\é"]é => 'aé'
a["\\"]b => 'ab'
a[""]"b" => 'a"b"'
module.m["p.q]"].t.n => 'module.m.t.n'
t.n["a key of more than sixteen bytes \" é"].x => 't.n.x'
[18446744073709551616]["\\"] => ''
'''

# Modules, and both configuration addresses of t.n in each: of a managed resource, and of a data
# source.
CONFIGURATIONS = r''' => 't.n' 'data.t.n'
module.m[7] => 'module.m.t.n' 'module.m.data.t.n'
module.m["a.b"] => 'module.m.t.n' 'module.m.data.t.n'
[0] => '.t.n' '.data.t.n'
'''

# Texts whose first bracket without a key is a closing one.
STRAY = r''']
a]
a]b[
a[0]]
é]
a["é😀"]é]
'''

# Texts whose first bracket without a key is an opening one.
UNCLOSED = r'''[
a[x]
a[]
a["
a["x
a["x"
a["x\
a["x"y]
a[1x]
a[x]]
a[0].é[1
a[0]["]"].b["x\"]
'''

# States, with the answer to each: the version, the serial, the lineage, which fault comes first,
# which of two members counts, additional members, and invalid JSON.
STATES = r'''{"version":4, "serial":1 ,"lineage":"L1"} => 1 "L1"
{"version":4.0,"serial":1,"lineage":"L1"} => Version
{"version":4e0,"serial":1,"lineage":"L1"} => Version
{"version":"4","serial":1,"lineage":"L1"} => Version
{"version":null,"serial":1,"lineage":"L1"} => Version
{"version":3,"serial":1,"lineage":"L1"} => Version
{"version":5,"serial":1,"lineage":"L1"} => Version
{"version":-4,"serial":1,"lineage":"L1"} => Version
{"version":[4],"serial":1,"lineage":"L1"} => Version
{"version":true,"serial":1,"lineage":"L1"} => Version
{"serial":1,"lineage":"L1"} => Version
{"Version":4,"serial":1,"lineage":"L1"} => Version
[] => Version
4 => Version
"version" => Version
null => Version
[{"version":4}] => Version
true => Version
{"version":4,"serial":0,"lineage":"L1"} => 0 "L1"
{"version":4,"serial":18446744073709551615,"lineage":"L1"} => 18446744073709551615 "L1"
{"version":4,"serial":18446744073709551616,"lineage":"L1"} => Serial
{"version":4,"serial":1,"lineage":"\u00e9\n"} => 1 "é\n"
{"version":4,"Serial":1,"lineage":"L1"} => Serial
{"version":4,"serial":-0,"lineage":"L1"} => Serial
{"version":4,"serial":-1,"lineage":"L1"} => Serial
{"version":4,"serial":1.0,"lineage":"L1"} => Serial
{"version":4,"serial":1e0,"lineage":"L1"} => Serial
{"version":4,"serial":"1","lineage":"L1"} => Serial
{"version":4,"serial":null,"lineage":"L1"} => Serial
{"version":4,"serial":[],"lineage":"L1"} => Serial
{"version":4,"lineage":"L1"} => Serial
{"version":4,"serial":1,"lineage":"\u004c\t\"1"} => 1 "L\t\"1"
{"version":4,"serial":1,"lineage":"\ud83d\ude00"} => 1 "😀"
{"version":4,"serial":1,"lineage":""} => Lineage
{"version":4,"serial":1,"lineage":null} => Lineage
{"version":4,"serial":1,"lineage":7} => Lineage
{"version":4,"serial":1,"lineage":["L1"]} => Lineage
{"version":4,"serial":1,"lineage":{"L1":1}} => Lineage
{"version":4,"serial":1} => Lineage
{"version":3,"serial":-1,"lineage":"" => NotJson
{"lineage":"","serial":-1,"version":3} => Version
{"lineage":"","serial":-1,"version":4} => Serial
{"version":4,"serial":1,"lineage":"","resources":{}} => Lineage
{"version":3,"version":4,"serial":1,"serial":2,"lineage":"L1"} => 2 "L1"
{"version":4,"version":3,"serial":1,"lineage":"L1"} => Version
{"version":4,"serial":0,"lineage":"L1","resources":null,"more":[1]} => 0 "L1"
{"terraform_version":"1.9.0","outputs":{},"version":4,"check_results":null,"serial":7,"lineage":"3f2a"} => 7 "3f2a"
{"version":4,"serial":1,"lineage":"L1"}x => NotJson
{"version":4,"serial":1,"lineage":"L1"}{} => NotJson
 => NotJson
abc => NotJson
{"version":4,"serial":1,"lineage":"L1",} => NotJson
{"version":04,"serial":1,"lineage":"L1"} => NotJson
{"version":4,"serial":1,"lineage":"\ud800"} => NotJson
'''

# Lists of resources and invalid lists, with the first fault of each.
RESOURCES = r'''{} => Resource(0)
7 => Resource(0)
"[]" => Resource(0)
false => Resource(0)
[null] => Resource(0)
[[]] => Resource(0)
[7] => Resource(0)
[{}] => Resource(0)
[{"mode":"x","type":"t","name":"n"}] => Resource(0)
[{"mode":"Data","type":"t","name":"n"}] => Resource(0)
[{"mode":null,"type":"t","name":"n"}] => Resource(0)
[{"mode":1e0,"type":"t","name":"n"}] => Resource(0)
[{"mode":"data","type":"","name":"n"}] => Resource(0)
[{"mode":"data","name":"n"}] => Resource(0)
[{"mode":"data","type":"t","name":""}] => Resource(0)
[{"mode":"data","type":"t","name":7}] => Resource(0)
[{"mode":"data","type":"t","name":"n","instances":{}}] => Resource(0)
[{"mode":"data","type":"t","name":"n","instances":false}] => Resource(0)
[{"module":7,"mode":"data","type":"t","name":"n"}] => Resource(0)
[{"module":"module.m[0","mode":"managed","type":"t","name":"n"}] => Resource(0)
[{"module":"module.m]","mode":"managed","type":"t","name":"n","instances":[{}]}] => Resource(0)
[{"mode":"data","type":"t","name":"n"},{"mode":"data","type":"t","name":"n","instances":null},1] => Resource(2)
[{"mode":"data","type":"t","name":"n","instances":[null]}] => Instance(0, 0)
[{"mode":"data","type":"t","name":"n","instances":[{}],"instances":[1,null]}] => Instance(0, 0)
[{"mode":"data","type":"t","name":"n","instances":[{"dependencies":[null]}]}] => Dependency(0, 0, 0)
[{"module":"m[1]","mode":"managed","type":"t[0]","name":"n]","instances":[{},{"dependencies":["m.t[0].n]"]}]}] => Dependency(0, 1, 0)
[{"mode":"managed","type":"t","name":"n","instances":[{"dependencies":["a["]},{"index_key":-1}]},{"mode":"x"}] => Dependency(0, 0, 0)
[{"mode":"managed","type":"t","name":"","instances":[{"dependencies":["a["]},{"index_key":-1}]},{"mode":"x"}] => Resource(0)
'''

# Invalid instances.
NO_INSTANCES = r'''null
7
[]
""
true
{"index_key":-1}
{"index_key":-0}
{"index_key":1.0}
{"index_key":1e0}
{"index_key":18446744073709551616}
{"index_key":true}
{"index_key":[]}
{"index_key":{}}
{"deposed":1}
{"deposed":[]}
{"dependencies":{}}
{"dependencies":"t.a"}
{"dependencies":["a["],"deposed":1}
'''

# Invalid dependencies.
NO_DEPENDENCIES = r'''null
7
[]
{}
false
"a["
"a]"
"a[x]"
"a[]"
"a[1x]"
"a[\"x\""
'''

# Lists of one resource with one instance, and the line of each.
MODULES = r'''[{"mode":"data","type":"t","name":"n","instances":[{}]}] => data.t.n of data.t.n:
[{"module":null,"mode":"data","type":"t","name":"n","instances":[{}]}] => data.t.n of data.t.n:
[{"mode":"data","type":"t","name":"n","instances":[{"index_key":0,"deposed":"ab12"}]}] => data.t.n[0] (deposed ab12) of data.t.n:
[{"module":"","mode":"managed","type":"t","name":"n","instances":[{}]}] => t.n of t.n:
[{"module":"module.m[\"p.q]\"]","mode":"managed","type":"t","name":"n","instances":[{}]}] => module.m["p.q]"].t.n of module.m.t.n:
[{"module":"module.m[7]","mode":"data","type":"t","name":"n","instances":[{}]}] => module.m[7].data.t.n of module.m.data.t.n:
[{"module":"[0]","mode":"managed","type":"t","name":"n","instances":[{}]}] => [0].t.n of .t.n:
[{"module":"m[1]","mode":"managed","type":"t[0]","name":"n]","instances":[{}]}] => m[1].t[0].n] of m.t[0].n]:
'''

# Resources without instances.
EMPTY = r'''null
[]
[{"mode":"data","type":"t","name":"n"}]
[{"mode":"data","type":"t","name":"n","instances":null}]
[{"mode":"data","type":"t","name":"n","instances":[]}]
'''

# A resource of instances with keys and deposed objects, and its lines.
KEYS = r'''[{"mode":"managed","type":"t","name":"n","instances":
[{"index_key":0},{"index_key":"k"},{"index_key":0,"deposed":"ab12"},{"deposed":"","index_key":null},{"index_key":""},
{"index_key":"a\"\u0007\u00e9/"},{"index_key":18446744073709551615}]}]
'''

KEYS_LINES = r'''t.n[0] of t.n:
t.n["k"] of t.n:
t.n[0] (deposed ab12) of t.n:
t.n of t.n:
t.n[""] of t.n:
t.n["a\"\u0007é/"] of t.n:
t.n[18446744073709551615] of t.n:
'''

# Resources that depend on each other, on themselves, and on absent ones; two have one address.
DEPENDENT = r'''[{"mode":"managed","type":"t","name":"a","instances":[{"dependencies":["t.a","t.a"]}]},
{"mode":"managed","type":"t","name":"a","instances":[{"dependencies":[]}]},
{"mode":"managed","type":"t","name":"b","instances":[{"dependencies":["t.a[\"k\"]"]}]},
{"mode":"managed","type":"t","name":"c","instances":[{"dependencies":["x.y","t.b[3]"]}]},
{"mode":"managed","type":"t","name":"d","instances":[{"dependencies":["t.e"]}]},
{"mode":"managed","type":"t","name":"e","instances":[{"dependencies":["t.d"]}]}]
'''

DEPENDENT_LINES = r'''t.a of t.a: 0 1
t.a of t.a:
t.b of t.b: 0 1
t.c of t.c: 2
t.d of t.d: 5
t.e of t.e: 4
'''

# Instances of one module with two keys, and one that depends on both by a third key.
KEYED_MODULES = r'''[{"module":"module.m[\"p.q]\"]","mode":"managed","type":"t","name":"n","instances":[{}]},
{"module":"module.m[0]","mode":"managed","type":"t","name":"n","instances":[{}]},
{"mode":"managed","type":"t","name":"z","instances":[{"dependencies":["module.m[7].t.n"]}]}]
'''

KEYED_MODULES_LINES = r'''module.m["p.q]"].t.n of module.m.t.n:
module.m[0].t.n of module.m.t.n:
t.z of t.z: 0 1
'''

# Lock texts, with the answer to each: what is kept, invalid JSON, other values than objects,
# invalid identifiers, escapes, which of two members counts, and additional members.
LOCKS = r'''{"ID":"A" ,"Who":""} => "A"
{"ID":"A"} => "A"
{"ID":"lock"} => "lock"
{"ID":"LOCK"} => "LOCK"
{"ID":"6bf5b4a8-7d0c-11ef","Operation":"OperationTypeApply","Info":"","Who":"ann@host","Version":"1.9.0","Path":""} => "6bf5b4a8-7d0c-11ef"
 => NotJson
  => NotJson
x => NotJson
{"ID":"A" => NotJson
{"ID":"A",} => NotJson
{"ID":"A"}x => NotJson
{"ID":"A"}{} => NotJson
{'ID':'A'} => NotJson
{"ID":"\ud800"} => NotJson
{"ID":"\x41"} => NotJson
{"ID":"A","Who":01} => NotJson
{"ID":"A","Who":1e400} => NotJson
[] => NotObject
 [ ]  => NotObject
[{"ID":"A"}] => NotObject
"ID" => NotObject
7 => NotObject
null => NotObject
true => NotObject
{} => NoId
{"ID":""} => NoId
{"ID":7} => NoId
{"ID":null} => NoId
{"ID":true} => NoId
{"ID":["A"]} => NoId
{"ID":{"ID":"A"}} => NoId
{"id":"A"} => NoId
{"Id":"A"} => NoId
{"ID ":"A"} => NoId
{"Lock":{"ID":"A"}} => NoId
{"ID":"\u0041"} => "A"
{"I\u0044":"A"} => "A"
{"ID":"\"\\\/"} => "\"\\/"
{"ID":" "} => " "
{"ID":"\t"} => "\t"
{"ID":"\u0000"} => "\u0000"
{"ID":"\ud83d\ude00"} => "😀"
{"ID":"é"} => "é"
{"ID":"A","ID":"B"} => "B"
{"ID":7,"Who":"","I\u0044":"B"} => "B"
{"ID":7,"I\u0044":"A","id":"B","outputs":[{}]} => "A"
{"ID":"A","ID":null} => NoId
{"Who":7,"Info":[null,{}],"ID":"A","id":"B","Path":null,"more":{"ID":"C"}} => "A"
'''

# Lock texts, in which `#` means 257 letters, with the answer to each.
FILLED = r'''{"ID":"# => NotJson
[{"ID":"#"}] => NotObject
{"Who":"#"} => NoId
{"ID":"#"} => TooLong
'''
