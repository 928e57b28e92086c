"""Texts of a state and of a lock with mistakes and additional members, for Hypothesis."""
from hypothesis import strategies as st

from journal_texts import one_in, up_to

# The lock that texts are made from.
LOCK = r'''{"ID":"6bf5\u00e9","Operation":"OperationTypeApply","Info":"","Who":"a@b","Version":"1.9.5","Path":{"ID":[1]}}'''

# The state that texts are made from.
STATE = r'''{"version":4,"terraform_version":"1.9.5","serial":7,"lineage":"L\u00e9-1","outputs":{"o":{"value":[1,2.5e-3,-0]}},"resources":[
{"module":"module.m[\"a\"]","mode":"managed","type":"t","name":"a","provider":"p","instances":[
{"index_key":0,"attributes":{"id":"x\\y","ports":[80,443],"tags":null},"dependencies":["t.b","module.m.t.a"]},
{"index_key":"k\u0022","deposed":"5a9c01ef","private":"eyJ4Ijox","dependencies":["data.t.b[0]"]}]},
{"mode":"data","type":"t","name":"b","instances":[{"attributes":{"name":"\ud83d\ude00"}},{"index_key":1,"dependencies":[]}]}],
"check_results":null}'''

# Members and parts of JSON texts, one each.
PIECES = r'''
"serial":8,
"\u0073erial":9,
"version":4,
"version":4.0,
"lineage":"M",
"lineage":"",
"resources":[],
"resources":null,
"module":"module.q[1]",
"module":"module.q[",
"mode":"data",
"type":"u",
"name":null,
"instances":[{},{"index_key":2}],
"index_key":1,
"index_key":"\u0041\n",
"index_key":-1,
"deposed":"d",
"deposed":null,
"dependencies":["t.b","t.a[\"x\"]"],
"dependencies":["t.b["],
"dependencies":null,
"ID":"B",
"ID":7,
"x":1e400,
"x":-1e308,
"x":123456789012345678901234567890,
"x":01,
"x":1.,
"x":-,
"x":"\ud800",
"x":"\u12",
"x":tru,
"x":nul,
"x":{"serial":1,"y":[true,{"z":"\""}]},
"x":[[[[[[]]]]]],
"x":[1,],
"x":{},"y":[
{"a":
[
]
{
}
,
:
"
\
-
.
e9
u
null
18446744073709551616
'''.encode().split() + [b"  ", b"\xff"]


# A piece, most often a member, and the number of bytes that it replaces.
SOME_PIECES = st.sampled_from(PIECES + PIECES[:24] * (len(PIECES) // 24 + 1))
COUNTS = st.sampled_from([0] * 240 + [1] * 40 + [*range(40)])


@st.composite
def changed(draw, text):
    """Draws the text with a piece, often a member, at some place, often after a comma, instead of
    some bytes or of none."""
    place = draw(up_to(len(text) - 1))
    if not draw(one_in(4)):
        place = text.find(b",", place) + 1 or place
    return text[:place] + draw(SOME_PIECES) + text[place + draw(COUNTS) :]


@st.composite
def texts_with_mistakes(draw, text):
    """Draws the bytes of the text with one change or two."""
    text = draw(changed(text.encode()))
    return draw(changed(text)) if draw(one_in(3)) else text
