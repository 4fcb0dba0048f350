"""Journals for checks/journal-picture with the tables that they make, worked out by hand from docs/users/journal.md."""

# `pipe a b 10 100` over two lines, and how many entries stand whole in its first lines, from none on; the text is whole
# with its last line. Before the first line there is no journal.
TWO_LINES = b"cpu,host=a v=1i 5\ncpu v=2.5 6\n"
TWO = b"""\
journal 1
start 0
input 0 plain
output 0 10 100
gather 0 0 2 0 0 0 2 -
m cpu;host=a|v=i1|5
m cpu|v=f2.5|6
ended 0
take 0
route 0 = passes / =
take 1
route 1 = passes / =
begin 0 0 2
done 0 ok
stop 0 0
input 0 pieces 2 refused 0 passed 0 filtered 0 gathered 2 ended
items made 0 removed 0 routed 2
output 0 filtered 0 late 0 consumed 0 written 2 buffered 0 dropped 0
end 9
"""
TWO_ENTRIES = [None, 0, 0, 0, 0, 0, 0, 1, 2, 3, 4, 5, 6, 7, 8, 9, 9, 9, 9, 9]
TWO_TABLE = """\
a whole journal, 9 entries

         pieces  refused  passed  filtered  gathered  not routed  removed  routed
input 0       2        0       0         0         2           0        0       2
total         2        0       0         0         2           0        0       2

output 0  filtered  late  consumed  written  buffered  dropped
input 0          0     0         0        2         0        0
total            0     0         0        2         0        0
"""

# `pipe a b 2 3` over five lines: two metrics are dropped for want of room, then a batch fails twice, and is accepted.
FIVE_LINES = b"".join(b"c v=%di %d\n" % (number, number) for number in range(5))
FIVE_BEGIN = b"""\
journal 1
start 0
input 0 plain
output 0 2 3
gather 0 0 5 0 0 0 5 -
m c|v=i0|0
m c|v=i1|1
m c|v=i2|2
m c|v=i3|3
m c|v=i4|4
ended 0
take 0
route 0 = passes / =
take 1
route 1 = passes / =
take 2
route 2 = passes / =
take 3
route 3 = passes / =
take 4
route 4 = passes / =
begin 0 2 4
done 0 failed
stop 0 0
begin 0 2 4
done 0 failed
"""
FIVE = FIVE_BEGIN + b"""\
begin 0 2 4
done 0 ok
begin 0 4 5
done 0 ok
input 0 pieces 5 refused 0 passed 0 filtered 0 gathered 5 ended
items made 0 removed 0 routed 5
output 0 filtered 0 late 0 consumed 0 written 3 buffered 0 dropped 2
end 21
"""
FIVE_TABLE = """\
a whole journal, 21 entries

         pieces  refused  passed  filtered  gathered  not routed  removed  routed
input 0       5        0       0         0         5           0        0       5
total         5        0       0         0         5           0        0       5

output 0  filtered  late  consumed  written  buffered  dropped
input 0          0     0         0        3         0        2
total            0     0         0        3         0        2
"""
# The same to an output that accepts nothing: one try in the round, and three behind the stop.
FULL_TABLE = """\
a whole journal, 21 entries

         pieces  refused  passed  filtered  gathered  not routed  removed  routed
input 0       5        0       0         0         5           0        0       5
total         5        0       0         0         5           0        0       5

output 0  filtered  late  consumed  written  buffered  dropped
input 0          0     0         0        0         3        2
total            0     0         0        0         3        2
"""

# Metrics come while a batch is in flight, which fails and then has one more than may wait; at the end one is in flight.
FLIGHT = b"""\
journal 1
start 100
input 0 plain
input 1 plain
output 0 2 2
output 1 1 3
gather 0 0 3 0 0 0 3 -
m a|v=i0|0
m a|v=i1|1
m a|v=i2|2
take 0
route 0 = passes / = =
take 1
route 1 = passes / = -
begin 0 0 2
take 2
route 2 = passes / = =
done 0 failed
gather 1 0 2 0 0 0 2 -
m b|v=i3|3
m b|v=i4|4
take 3
route 3 - removed
begin 0 1 3
done 0 ok
begin 1 0 1
done 1 ok
ended 0
stop 100 0
take 4
route 4 = passes / - =
begin 1 1 2
input 0 pieces 3 refused 0 passed 0 filtered 0 gathered 3 ended
input 1 pieces 2 refused 0 passed 0 filtered 0 gathered 2 unread
items made 0 removed 1 routed 4
output 0 filtered 1 late 0 consumed 0 written 2 buffered 0 dropped 1
output 1 filtered 1 late 0 consumed 0 written 1 buffered 2 dropped 0
end 21
"""
FLIGHT_TABLE = """\
a whole journal, 21 entries

         pieces  refused  passed  filtered  gathered  not routed  removed  routed
input 0       3        0       0         0         3           0        0       3
input 1       2        0       0         0         2           0        1       1
total         5        0       0         0         5           0        1       4

output 0  filtered  late  consumed  written  buffered  dropped
input 0          0     0         0        2         0        1
input 1          1     0         0        0         0        0
total            1     0         0        2         0        1

output 1  filtered  late  consumed  written  buffered  dropped
input 0          1     0         0        1         1        0
input 1          0     0         0        0         1        0
total            1     0         0        1         2        0
"""

# All forms of lines, also those that no run makes yet.
FORMS = b"""\
journal 1
start -5
input 0 tracked 2
input 1 plain
aggregator 0 basicstats:scx 10 1 2 drop
aggregator 1 final:-7 1 0 0 keep
output 0 2 3
output 1 1 1
gather 0 -1 3 1 0 0 2 0
m c%25;a%20b=%C3%A9|v=i-1;w=u18446744073709551615;x=f-0.5;y=bt;z=s|9223372036854775807
m m|v=s%0A|0
take 0
route 0 = passes = - / = c|v=f1|3
take 1
route 1 - removed
gather 1 0 2 0 1 1 0 -
gather 0 4 1 1 0 0 0 1
report 1 delivered
begin 0 0 1
done 0 failed
begin 0 0 1
done 0 ok
begin 1 0 1
done 1 ok
report 0 delivered
ended 0
tick 7 1
m m|v_sum=i3|10
take 2
route 2 n;t=1|v=bf|10 late - - / - =
ended 1
stop 9 0
input 0 pieces 4 refused 2 passed 0 filtered 0 gathered 2 ended
input 1 pieces 2 refused 0 passed 1 filtered 1 gathered 0 ended
groups 0 delivered 2 rejected 0 undelivered 0
items made 1 removed 1 routed 2
output 0 filtered 0 late 1 consumed 0 written 1 buffered 0 dropped 0
output 1 filtered 0 late 1 consumed 0 written 1 buffered 0 dropped 0
end 19
"""
FORMS_ENTRIES = [
    None, 0, 0, 0, 0, 0, 0, 0, 0, 0, 0, 1, 2, 3, 4, 5, 6, 7, 7, 8, 9, 10, 11, 12, 13, 13, 14, 14, 15, 16, 17, 18, 19,
    19, 19, 19, 19, 19, 19, 19,
]
FORMS_TABLE = """\
a whole journal, 19 entries

         pieces  refused  passed  filtered  gathered  not routed  removed  routed
input 0       4        2       0         0         2           0        1       1
input 1       2        0       1         1         0           0        0       0
made          0        0       0         0         0           0        0       1
total         6        2       1         1         2           0        1       2

output 0  filtered  late  consumed  written  buffered  dropped
input 0          0     0         0        1         0        0
input 1          0     0         0        0         0        0
made             0     1         0        0         0        0
total            0     1         0        1         0        0

output 1  filtered  late  consumed  written  buffered  dropped
input 0          0     0         0        1         0        0
input 1          0     0         0        0         0        0
made             0     1         0        0         0        0
total            0     1         0        1         0        0
"""

# Groups of two tracked inputs: at the output one metric waits at most, so that item 0 and then item 1 are dropped, with which
# the groups 0 and 1 are rejected; item 2 is written, and item 3 waits, so that group 2 isn't settled.
GROUPS = b"""\
journal 1
start 0
input 0 tracked 9
input 1 tracked 9
output 0 1 1
gather 0 0 1 0 0 0 1 0
m a|v=i0|0
gather 1 0 2 0 0 0 2 1
m b|v=i0|0
m b|v=i0|0
gather 0 0 1 0 0 0 1 2
m a|v=i0|0
take 0
route 0 = passes / =
take 1
route 1 = passes / =
report 0 rejected
take 2
route 2 = passes / =
begin 0 2 3
done 0 ok
report 1 rejected
take 3
route 3 = passes / =
stop 0 0
input 0 pieces 2 refused 0 passed 0 filtered 0 gathered 2 unread
input 1 pieces 2 refused 0 passed 0 filtered 0 gathered 2 unread
groups 0 delivered 0 rejected 1 undelivered 1
groups 1 delivered 0 rejected 1 undelivered 0
items made 0 removed 0 routed 4
output 0 filtered 0 late 0 consumed 0 written 1 buffered 1 dropped 2
end 14
"""
GROUPS_TABLE = """\
a whole journal, 14 entries

         pieces  refused  passed  filtered  gathered  not routed  removed  routed
input 0       2        0       0         0         2           0        0       2
input 1       2        0       0         0         2           0        0       2
total         4        0       0         0         4           0        0       4

output 0  filtered  late  consumed  written  buffered  dropped
input 0          0     0         0        0         1        1
input 1          0     0         0        1         0        1
total            0     0         0        1         1        2
"""

# A front with every fate at its output, whose batches have two metrics and where two wait at most: of the positions 0 to 7
# the first two are written, 2 to 4 pushed out by those behind them, and of the last three two were in flight and failed,
# so that position 5 is dropped too. Two metrics of input 1 have no route yet.
FATES = b"""\
journal 1
start 0
input 0 plain
input 1 plain
aggregator 0 minmax 10 0 0 drop
output 0 2 2
gather 0 0 9 0 0 0 9 -
m a|v=i0|0
m a|v=i0|0
m a|v=i0|0
m a|v=i0|0
m a|v=i0|0
m a|v=i0|0
m a|v=i0|0
m a|v=i0|0
m a|v=i0|0
gather 1 0 5 1 0 0 4 -
m b|v=i0|0
m b|v=i0|0
m b|v=i0|0
m b|v=i0|0
take 0
route 0 = passes - / =
take 1
route 1 = passes - / =
begin 0 0 2
done 0 ok
take 2
route 2 = passes - / -
take 3
route 3 = consumed = / -
take 4
route 4 = late = / -
take 5
route 5 = passes - / =
take 6
route 6 = passes - / =
take 7
route 7 = passes - / =
take 8
route 8 = passes - / =
take 9
route 9 = passes - / =
begin 0 5 7
take 10
route 10 = passes - / =
done 0 failed
"""
FATES_TABLE = """\
the front of a journal, 28 entries; the text ends there: the run goes on, or was cut off

         pieces  refused  passed  filtered  gathered  not routed  removed  routed
input 0       9        0       0         0         9           0        0       9
input 1       5        1       0         0         4           2        0       2
made          0        0       0         0         0           0        0       0
total        14        1       0         0        13           2        0      11

output 0  filtered  late  consumed  written  buffered  dropped
input 0          1     1         1        2         0        4
input 1          0     0         0        0         2        0
made             0     0         0        0         0        0
total            1     1         1        2         2        4
"""

# The configuration of README.md with two inputs and two outputs.
README_FILES = {
    "agent.toml": b"""\
[global_tags]
dc = "x"

[[inputs.file]]
files = ["a"]

[[inputs.file]]
files = ["a2"]
namedrop = ["m*"]

[[outputs.file]]
files = ["b"]

[[outputs.file]]
files = ["b2"]
namepass = ["cpu"]
tagexclude = ["host"]
""",
    "a": b"cpu,host=a v=1i 5\ncpu v=2.5 6\n",
    "a2": b"mem u=1u 7\ndisk,dc=y f=2 8\n",
}
README_TABLE = """\
a whole journal, 15 entries

         pieces  refused  passed  filtered  gathered  not routed  removed  routed
input 0       2        0       0         0         2           0        0       2
input 1       2        0       0         1         1           0        0       1
total         4        0       0         1         3           0        0       3

output 0  filtered  late  consumed  written  buffered  dropped
input 0          0     0         0        2         0        0
input 1          0     0         0        1         0        0
total            0     0         0        3         0        0

output 1  filtered  late  consumed  written  buffered  dropped
input 0          0     0         0        2         0        0
input 1          1     0         0        0         0        0
total            1     0         0        2         0        0
"""

# A run over 1,000 lines that was killed while its input was open.
KILLED_TABLE = """\
the front of a journal, 2003 entries; the text ends there: the run goes on, or was cut off

         pieces  refused  passed  filtered  gathered  not routed  removed  routed
input 0    1000        0       0         0      1000           0        0    1000
total      1000        0       0         0      1000           0        0    1000

output 0  filtered  late  consumed  written  buffered  dropped
input 0          0     0         0     1000         0        0
total            0     0         0     1000         0        0
"""
