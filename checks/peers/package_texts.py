"""The texts that packages' programs read: functions from the folder of a package to its texts."""
import re
from functools import partial

UNCOMMENTED = partial(re.compile(rb"^[ \t]*(?:#.*)?\n|[ \t]*#.*", re.M).sub, b"")


def given(*texts):
    """These texts."""
    return lambda folder: list(texts)


def files(*patterns):
    """The texts of files, each pattern's in order of their names."""

    def texts(folder):
        """The texts in a folder."""
        paths = [it for pattern in patterns for it in sorted(folder.glob(pattern))]
        return [it.read_bytes() for it in paths if it.is_file()]

    return texts


def parts(pattern, *patterns):
    """The parts of files that a pattern finds: its first group, where it has one."""

    def texts(folder):
        """The texts in a folder."""
        return [it for text in files(*patterns)(folder) for it in re.findall(pattern, text)]

    return texts


# --- units
def definitions(folder):
    """The definitions of all units, without comments."""
    return [UNCOMMENTED((folder / "definitions.units").read_bytes())]


def right_sides(folder):
    """What definitions say, twenty at a time; of two lines the first is converted to the second."""
    lines = re.findall(rb"(?m)^[A-Za-z]\w*[ \t]+([^\[\n]+)$", definitions(folder)[0])
    return [b"\n".join(lines[at : at + 20]) + b"\n" for at in range(0, len(lines), 20)]


# --- groff: equations with each construct of eqn's language; its documents have few.
EQUATIONS = rb"""
a over b + {c sup 2} over {d sub i sup j} = sqrt {x + y}
sum from {i = 0} to inf x sub i ~=~ int from 0 to 1 f(t) dt
left ( a over b right ) left [ pile { a above b above "text" } right none
matrix { ccol { 1 above 0 above 0 } lcol { 0 above 1 } rcol { x above y } }
x dot + x dotdot + x hat + x tilde + x bar + {x under} vec dyad
define X "{a over b}" X + X sup 2 size 12 roman "r" bold b italic i fat f
a mark = b lineup = c prime smallover d accent ~ size +3 {up 20 x down 5 y}
lpile {a above b} cpile {c above d} rpile {e above f} font R g fwd 10 h back 5 i
gsize 12 gfont I set x_height 45 split no nosplit yes vcenter {a over b} times b
left { a over b right } uoverline q sub p sub r sup s from t to u type "binary" z
x sup y sub z over w sup {q over r} over s -> <- != == >= <= >> << +- ... grad del
undef X ndefine Y 'n' tdefine Y 't' Y special foo {a} space 20 chartype "letter" %
""".strip().splitlines()


def equations(folder):
    """The equations of the package's documents, and ours."""
    found = parts(rb"(?ms)^\.EQ.*?^\.EN$", "doc/*.m[se]", "contrib/*/examples/**/*.*")(folder)
    return [it + b"\n" for it in found] + [b".EQ\n%s\n.EN\n" % it for it in EQUATIONS]


PICTURES = parts(rb"(?ms)^\.PS.*?^\.PE\n", "doc/pic.ms")

# --- jq's programs, each the first line of a test
JQ_PROGRAMS = parts(rb"(?m)^\n+((?!#)[^\n]+)\n[^\n]+\n", "tests/jq.test")

# --- libpcap: expressions with each construct of its language
FILTERS = given(
    *rb"""
host 10.0.0.1 and not (port 80 or port 443)
src net 192.168.0.0/16 and dst net 10.0.0.0 mask 255.0.0.0
tcp[tcpflags] & (tcp-syn|tcp-fin) != 0 and not src and dst net 127.0.0.0/8
tcp port 80 and (((ip[2:2] - ((ip[0]&0xf)<<2)) - ((tcp[12]&0xf0)>>2)) != 0)
ether host 00:11:22:33:44:55 and ether proto 0x0800
ip6 host fe80::1 or ip6 net 2001:db8::/32
vlan 100 && vlan 200 and udp portrange 1000-2000
mpls 100000 && mpls 1024 and host 192.9.200.1
icmp[icmptype] != icmp-echo and icmp[icmptype] != icmp-echoreply
ether[0] & 1 = 0 and ip[16] >= 224
less 128 or greater 1500
ip broadcast or ether multicast or ip6 multicast
ip proto \tcp or ip6 proto 17 or ip protochain 6
arp host 1.2.3.4 or rarp or decnet host 1.2
sctp src port 5060 or dst port 25 or 53 or 80
len > 100 and len <= 1000 - 3 * 2 / 1 % 7
pppoes 3 and ip and geneve 5 and tcp
gateway localhost or net 10 or 1.2.3.4
(tcp or udp) and not port 22 or ! arp
tcp[0:2] = 80 or - tcp[13] = 2 ^ 1 << 1
""".strip().splitlines()
)

# --- the calculators of byacc's tests, which come without a text, and of bison's examples
SUMS = given(
    b"1 + 2 * 3\na = 5\na * 2 - (1 + 7) / 2\n010 + 011\n1 + + 2\nb = a & 3 | 4\n7 % 4\n(3\n-a\n"
)


def heredocs(name):
    """The inputs of one of bison's examples."""
    return parts(rb"(?s)<<EOF\n(.*?)EOF\n", f"examples/c/{name}/*.test")
