"""Texts of radsecproxy and FreeRADIUS, each with what rad_convert has to write and to tell of it.

A row is a name, the text, the lines that are told (each the number of a line and a part of what it says), and what the configuration
has: clients, home servers and realms as short pairs, and the home servers of requests without a realm and of all other realms. None
stands for a text of which nothing can be written.
"""

# A client, a home server and a realm, for the texts that are about something else. Seven lines, eight and three.
R = "client 192.0.2.1 {\n type udp\n secret abc\n}\nserver h {\n type udp\n host 192.0.2.9:1813\n secret def\n}\n"
R_REALM = "realm example.org {\n accountingServer h\n}\n"
ONE = [("192.0.2.1", "abc")]
HOME = [("h", "192.0.2.9:1813", "def")]
REALM = [("example.org", "h")]
WHOLE = {"client": ONE, "home": HOME, "realm": REALM}
BOTH = {"default": "h", "other": "h"}

F = "client a {\n ipaddr = 192.0.2.1\n secret = abc\n}\nhome_server h {\n type = acct\n ipaddr = 192.0.2.9\n secret = def\n}\n"
F_POOL = "home_server_pool p {\n home_server = h\n}\n"
F_REALM = "realm example.org {\n nostrip\n acct_pool = p\n}\n"
F_ALL = F + F_POOL + F_REALM
# A server whose listener is not at the port of accounting.
F_OF_ANOTHER_PORT = """server a {
 listen {
  type = acct
  port = 11813
 }
 preacct {
  suffix
 }
}
"""


def block(head, *lines):
    """A block, with these lines in it."""
    return f"{head} {{\n" + "".join(f" {line}\n" for line in lines) + "}\n"


def clients(*more):
    """A whole site with these clients behind the first one."""
    return WHOLE | {"client": ONE + list(more)}


def radsecproxy():
    """Texts of radsecproxy."""
    yield "a whole one", R + R_REALM, [], WHOLE
    yield "words in other letters, an equals sign, and what is behind a value", (
        "CLIENT 192.0.2.1 { # x\n Type = \"UDP\" # x\n SECRET = 'abc' x\n}x\n" + R[R.index("server"):] + R_REALM), [], WHOLE
    yield "a block of addresses", R + R_REALM + "client 10.0.0.0/8 {\n type udp\n secret x\n}\n", [(13, "a block of addresses")], WHOLE
    yield "a block of one address", R + R_REALM + "client 10.0.0.1/32 {\n type udp\n secret x\n}\n", [], clients(("10.0.0.1", "x"))
    yield "numbers that radsecproxy reads as an address", R + R_REALM + "client 010.1 {\n type udp\n secret x\n}\n", [], (
        clients(("8.0.0.1", "x")))
    yield "a host name", R + R_REALM + "client nas.example {\n type udp\n secret x\n}\n", [(13, "host name")], WHOLE
    yield "IPv6", R + R_REALM + "client [2001:db8::1] {\n type udp\n secret x\n}\n", [(13, "IPv6")], WHOLE
    yield "several hosts of a client", R + R_REALM + "client x {\n host 10.0.0.1\n host 10.0.0.2\n type udp\n secret x\n}\n", [], (
        clients(("10.0.0.1", "x"), ("10.0.0.2", "x")))
    yield "one address twice", R + R_REALM + "client 192.0.2.1 {\n type udp\n secret x\n}\n", [(13, "192.0.2.1 is the client of")], WHOLE
    yield "TLS, DTLS and TCP", R + R_REALM + "".join(
        f"client 10.0.0.{number} {{\n type {kind}\n secret x\n}}\n" for number, kind in enumerate(("tls", "DTLS", "tcp", "sctp"))), (
        [(13, "no TLS"), (17, "no TLS"), (21, "no TCP"), (25, "no type")]), WHOLE
    yield "an escaped secret", R.replace("abc", '"a%22b%5c%23%c3%BC%zz%4"') + R_REALM, [], (
        WHOLE | {"client": [("192.0.2.1", 'a"b\\#ü%zz%4')]})
    yield "control characters", R.replace("abc", "%00%01%0a%7f%c2%85") + R_REALM, [], (
        WHOLE | {"client": [("192.0.2.1", "\0\1\n\x7f\x85")]})
    yield "a secret that is not UTF-8", R + R_REALM + "client 10.0.0.1 {\n type udp\n secret %ff\n}\n", [(13, "not UTF-8")], WHOLE
    yield "no secret", R + R_REALM + "client 10.0.0.1 {\n type udp\n}\n", [(13, "secret is empty")], WHOLE
    yield "a secret of 128 octets and one of 129", (
        R + R_REALM + "".join(f"client 10.0.0.{size} {{\n type udp\n secret {'x' * size}\n}}\n" for size in (128, 129))), (
        [(17, "129 octets")]), clients(("10.0.0.128", "x" * 128))
    alike = ((1, "+"), (2, "~"), (3, "@"))
    yield "three names that become one", R + R_REALM + "".join(
        f"server h{sign}a {{\n type udp\n host 192.0.2.1{number}:1813\n secret s{number}\n}}\nrealm r{number}.example {{\n accountingServer h{sign}a\n}}\n"
        for number, sign in alike), [], WHOLE | {
        "home": HOME + [(name, f"192.0.2.1{number}:1813", f"s{number}") for number, name in ((1, "h-a"), (2, "h-a-2"), (3, "h-a-3"))],
        "realm": REALM + [("r1.example", "h-a"), ("r2.example", "h-a-2"), ("r3.example", "h-a-3")]}
    yield "the port that radsecproxy sends to", R.replace(":1813", "") + R_REALM, [], WHOLE | {"home": [("h", "192.0.2.9:1812", "def")]}
    yield "a port of its own", R.replace(":1813", "\n port 1900") + R_REALM, [], WHOLE | {"home": [("h", "192.0.2.9:1900", "def")]}
    yield "no port", R.replace(":1813", ":70000") + R_REALM, [(7, "no number"), (11, "h is not carried over")], None
    yield "a name that rad_proxy cannot have", R.replace("server h", 'server "h/ü 1"') + R_REALM.replace("h\n", '"h/ü 1"\n'), [], (
        WHOLE | {"home": [("h----1", "192.0.2.9:1813", "def")], "realm": [("example.org", "h----1")]})
    yield "a second home server", (
        R + R[R.index("server"):].replace("server h", "server i").replace("2.9", "2.8") + "realm example.org {\n accountingServer h\n"
        " accountingServer i\n}\n"), [(17, "i is another one")], WHOLE
    yield "the catch-all", R + R_REALM + "realm * {\n accountingServer h\n}\nrealm b {\n accountingServer h\n}\n", (
        [(13, "drops requests of an empty realm"), (16, "never comes to it, since realm * of")]), WHOLE | BOTH
    yield "the catch-all of none", R + R_REALM + "realm * {\n replymessage x\n}\n", [], WHOLE
    yield "the catch-all that answers itself", R + R_REALM + block("realm *", "AccountingResponse on"), [(13, "answers nothing by itself")], WHOLE
    yield "the catch-all of a server that is not there, and one behind it", (
        R + R_REALM + block("realm *", "accountingServer i") + block("realm *", "accountingServer h")), (
            [(14, "no server i before it"), (16, "never comes to it")]), WHOLE
    yield "the catch-all behind what is not carried over", (
        R + block("realm a") + block("realm /@x/", "accountingServer h") + R_REALM + block("realm b", "accountingServer i")
        + block("realm Example.org", "accountingServer h") + block("realm *", "accountingServer h", "accountingServer h")), (
            [(12, "a pattern"), (15, "of a name with an `@`"), (19, "no server i before it"), (21, "has this name"), (24, "of an empty realm"),
             (24, "not carried over too (3, the first realm a of"), (26, "h is another one")]), WHOLE | BOTH
    yield "the catch-all behind realms that are carried over, twice", (
        R + R_REALM + block("realm EXAMPLE.org", "accountingServer h") + block("realm *", "accountingServer h")), (
            [(13, "has this name"), (16, "of an empty realm")]), WHOLE | BOTH
    for name in ("/.*/", "/.", "//", "/", "/.+/", "/^.*$/", "/$/", "/^/"):
        yield f"the pattern {name} of all", R + R_REALM + block(f"realm {name}", "accountingServer h") + block("realm b", "accountingServer h"), (
            [(13, "of an empty realm"), (16, f"never comes to it, since realm {name} of")]), WHOLE | BOTH
    for name in ("/@/", "/@./", "/.*@/", "/^.*@.+$/", "/@[^@]+$/", "/^[^@]*@/", "/\\@.*/"):
        yield f"the pattern {name} of each realm, and another one for the rest", (
            R + R[R.index("server"):].replace("server h", "server i").replace("2.9", "2.8") + R_REALM + block(f"realm {name}", "accountingServer h")
            + block("realm b", "accountingServer h") + block("realm /@x/", "accountingServer h") + block("realm *", "accountingServer i")), (
                [(18, "of an empty realm"), (21, "never comes to it"), (24, "a pattern"), (27, "carried over too (1, the first realm /@x/ of")]), (
            WHOLE | {"home": HOME + [("i", "192.0.2.8:1813", "def")], "default": "i", "other": "h"})
    for name in ("/.+@.+/", "/^[^@]+@[^@]+$/", "/^.$/", "/@.$/", "/a|.*/", "/.?@/", "/^$/"):
        yield f"the pattern {name}, which leaves some", R + R_REALM + block(f"realm {name}", "accountingServer h"), [(13, "a pattern")], WHOLE
    yield "names without a realm that are kept away, and the catch-all", (
        R + R_REALM + block("realm /^[^@]+$/") + block("realm *", "accountingServer h")), [(15, "of an empty realm")], WHOLE | {"other": "h"}
    yield "names without a realm alone", R + R_REALM + block("realm /^[^@]*$/", "accountingServer h"), [], WHOLE | {"default": "h"}
    yield "each realm that is kept away, and the catch-all", (
        R + R_REALM + block("realm /@/") + block("realm b", "accountingServer h") + block("realm *", "accountingServer h")), (
            [(15, "never comes to it")]), WHOLE | {"default": "h"}
    yield "patterns", R + R_REALM + "realm /@.*\\.example$ {\n accountingServer h\n}\nrealm /^a/ {\n}\n", (
        [(13, "a pattern"), (16, "a pattern")]), WHOLE
    yield "a realm behind a pattern that takes it, one that it leaves, and one of which it takes some", (
        R + R[R.index("server"):].replace("server h", "server i").replace("2.9", "2.8")
        + block("realm /@(.+\\.)?nordnetz\\.example$/", "accountingServer i") + block("realm biz.nordnetz.example", "accountingServer h")
        + R_REALM + block("realm /^vip.*@a\\.example$/", "accountingServer i") + block("realm a.example", "accountingServer h")), (
            [(15, "a pattern"), (24, "a pattern"), (27, "may take requests of it first")]), (
        WHOLE | {"home": [("i", "192.0.2.8:1813", "def")] + HOME, "realm": [("biz.nordnetz.example", "i")] + REALM})
    yield "a realm that a pattern keeps away", R + R_REALM + "realm /\\.example$/ {\n}\n" + block("realm b.example", "accountingServer h"), (
        [(13, "a pattern"), (15, "never comes to it")]), WHOLE
    yield "clients behind a block that has them, and one before it", (
        R + R_REALM + block("client 10.0.0.0/24", "type udp", "secret first") + block("client 10.0.0.7", "type udp", "secret own")
        + block("client 10.0.1.7", "type udp", "secret own")), (
            [(13, "a block of addresses")]), clients(("10.0.0.7", "first"), ("10.0.1.7", "own"))
    yield "a pattern of one whole name", R + "realm /@example\\.org$/ {\n accountingServer h\n}\n", [], WHOLE
    yield "a pattern with a dot", R + R_REALM + "realm /@example.net$/ {\n accountingServer h\n}\n", [(13, "a pattern")], WHOLE
    yield "names that radsecproxy takes as patterns", (
        R + R_REALM + block("realm *.example", "accountingServer h") + block("realm a+b", "accountingServer h")), (
        [(13, "a pattern"), (16, "a pattern")]), WHOLE
    yield "a realm that is ignored first", R + R_REALM + "realm b {\n}\n" + block("realm B", "accountingServer h"), (
        [(15, "never comes to it")]), WHOLE
    yield "one realm twice", R + R_REALM + "realm EXAMPLE.org {\n accountingServer h\n}\n", [(13, "has this name")], WHOLE
    yield "a realm with @, and one of 253 octets", (
        R + R_REALM + f"realm a@b {{\n accountingServer h\n}}\nrealm {'x' * 253} {{\n accountingServer h\n}}\n"), (
        [(13, "an `@`"), (16, "253 octets")]), WHOLE
    yield "authentication", R + "realm example.org {\n accountingServer h\n server h\n}\nrealm b {\n server h\n}\n", (
        [(12, "no authentication (lines for it in realms: 2)")]), WHOLE
    yield "an answer of radsecproxy's own", R + R_REALM + block("realm b", "AccountingResponse on"), (
        [(13, "answers nothing by itself")]), WHOLE
    yield "a server that comes too late", R_REALM + R, [(2, "no server h before it")], None
    yield "rewriting", (
        "rewrite default {\n removeAttribute 5\n}\n" + R.replace("secret abc", "secret abc\n rewriteIn x\n rewriteOut x").replace(
            "secret def", "secret def\n rewriteOut y") + R_REALM), (
        [(7, "does not rewrite"), (8, "does not rewrite"), (10, "rewrite default applies"), (14, "does not rewrite")]), WHOLE
    yield "loops, and lines for all", (
        "LoopPrevention on\nAddTTL 20\nListenTCP *:1\nListenTLS *:2\nSourceUDP 192.0.2.2:33\nLoopPrevention off\nListenUDP *:1812\n"
        "ListenUDP *:1813\nListenUDP [::1]\nNewOption on\nPidFile x\n"
        + R.replace("secret def", "secret def\n LoopPrevention on") + R_REALM), (
        [(1, "loop prevention"), (2, "loop prevention"), (3, "no TCP"), (4, "no TLS"), (5, "picks the address"),
         (7, "one address and port"), (9, "IPv6"), (10, "no option"), (20, "server h: LoopPreve")]), WHOLE | {"listen": "0.0.0.0:1813"}
    yield "where it receives", "ListenUDP 192.0.2.3:1645\n" + R + R_REALM, [], WHOLE | {"listen": "192.0.2.3:1645"}
    yield "everywhere", "ListenUDP 0.0.0.0:1813\n" + R + R_REALM, [], WHOLE | {"listen": "0.0.0.0:1813"}
    yield "waits", R.replace("secret def", "secret def\n retryCount 3\n retryInterval 5\n statusServer on") + R_REALM, [], WHOLE
    yield "home servers that are looked up", (
        R.replace("secret def", "secret def\n dynamicLookupCommand /x") + R_REALM), [(9, "looks up no")], WHOLE
    yield "nothing", "", [], None
    yield "no home server", "client 192.0.2.1 {\n type udp\n secret abc\n}\nrealm * {\n}\n", [], None


def radsecproxy_faults():
    """Texts that radsecproxy does not read either, each with the line and a part of what is said."""
    yield "{", 1, "neither an option"
    yield "}", 1, "} without a block"
    yield "client a {\n client b {\n", 2, "within the block of line 1"
    yield "client a {\n type udp\n", 2, "ends within the block of line 1"
    yield "client a {\n secret abc # x\n}\n", 2, "neither an option"
    yield 'client a {\n secret "abc\n}\n', 2, "quotation mark"
    yield 'client a {\n secret "a"b\n}\n', 2, "quotation mark"
    yield "include none-*.conf", 1, "no file matches"
    yield "include none.conf", 1, "No such file"
    yield "\ninclude .", 2, "a directory"
    yield "include it", 1, "includes itself"
    yield "\n\nclient a\0b {\n", 3, "a NUL octet"
    yield "x" * 2000, 1, "more than 1023 octets"


def freeradius():
    """Texts of FreeRADIUS."""
    yield "a whole one", F_ALL, [], WHOLE
    yield "one line, commas and comments", (
        "client a { ipaddr = 192.0.2.1, secret = abc } # x\n" + F[F.index("home"):] + F_POOL + F_REALM), [], WHOLE
    yield "a client of old", F_ALL.replace("client a {\n ipaddr = 192.0.2.1", "client 192.0.2.1 {"), [], WHOLE
    yield "blocks of addresses", F_ALL + "client b {\n ipaddr = 10.0.0.0/8\n secret = x\n}\nclient c {\n ipaddr = 10.0.0.0\n netmask = 8\n"\
        " secret = x\n}\nclient d {\n ipaddr = *\n secret = x\n}\n", [(18, "a block"), (22, "a block"), (27, "a block")], WHOLE
    yield "IPv6 and a host name", (
        F_ALL + block("client b", "ipv6addr = ::1", "secret = x") + block("client c", "ipaddr = nas.example", "secret = x")), (
        [(18, "IPv6"), (22, "host name")]), WHOLE
    yield "leading zeros", F_ALL + "client b {\n ipaddr = 010.0.0.1\n secret = x\n}\n", [(18, "no address")], WHOLE
    yield "marks and backslashes", (
        F_ALL + block("client b", '"ip\\141ddr" = 10.0.0.1', 'secret = "a\\"b\\101\\\\c#ü%{x}"')
        + block("client c", "ipaddr = 10.0.0.2", "secret = 'a\"\\'${x}'")
        + block("client d", "ipaddr = 10.0.0.3", "secret = a\"b'#\\ ")), [], (
            clients(("10.0.0.1", 'a"b\\101\\\\c#ü%{x}'), ("10.0.0.2", "a\"'${x}"), ("10.0.0.3", "a\"b'#\\")))
    yield "continued lines, and a path", F_ALL + 'logdir = /var/a=b{c\nclient b {\n ipaddr = \\\n10.0.0.1\n secret = "\\\n   a"\n}\n', [], clients(("10.0.0.1", "a"))
    yield "variables", "word = abc\n" + F_ALL.replace("= abc", '= "${word}"').replace("= def", "= ${client[a].secret}${..word}"), [], (
        WHOLE | {"home": [("h", "192.0.2.9:1813", "abcabc")]})
    yield "variables that are not known", F_ALL + (
        "client b {\n ipaddr = 10.0.0.1\n secret = $ENV{NO_SUCH_NAME}\n}\nclient c {\n ipaddr = ${none}\n secret = x\n}\n"), (
        [(18, "$ENV{NO_SUCH_NAME} is not set"), (22, "${none} is not known")]), WHOLE
    yield "templates", (
        "templates {\n t {\n  type = acct\n  secret = def\n  port = 1900\n  limit { x = 1 }\n }\n q {\n  home_server = other\n }\n}\n"
        + F_ALL.replace(" type = acct\n ipaddr = 192.0.2.9\n secret = def\n", " ipaddr = 192.0.2.9\n $template t\n secret = own\n").replace(
            " home_server = h\n", " $template q\n home_server = h\n")), [], WHOLE | {"home": [("h", "192.0.2.9:1900", "own")]}
    yield "no secret, one that is not UTF-8, and one too long", (
        F_ALL + "client b {\n ipaddr = 10.0.0.1\n}\nclient c {\n ipaddr = 10.0.0.2\n secret = \"\udcff\"\n}\n"
        f"client d {{\n ipaddr = 10.0.0.3\n secret = {'x' * 129}\n}}\n"), [(17, "empty"), (20, "not UTF-8"), (24, "129 octets")], WHOLE
    yield "TCP, TLS and dynamic clients", F_ALL + "".join(
        f"client c{number} {{\n ipaddr = 10.0.0.{number}\n secret = x\n {more}\n}}\n" for number, more in enumerate(
            ("proto = tcp", "proto = tls", "proto = *", "dynamic_clients = x", "virtual_server = y", "src_ipaddr = 10.0.0.9"))), (
        [(18, "TCP"), (23, "TCP"), (33, "dynamic"), (40, "virtual"), (45, "answers from")]), (
        clients(("10.0.0.2", "x"), ("10.0.0.4", "x"), ("10.0.0.5", "x")))
    yield "types of home servers", F_ALL.replace("type = acct", "type = auth+acct"), [], WHOLE
    yield "the type that is not written", F_ALL.replace(" type = acct\n", " port = 1645\n"), [], (
        WHOLE | {"home": [("h", "192.0.2.9:1646", "def")]})
    yield "a home server of authentication", F_ALL.replace("type = acct", "type = auth"), (
        [(5, "no accounting"), (11, "h is not carried over"), (15, "no home server of its pool")]), None
    yield "home servers that rad_proxy cannot have", F_ALL + "".join(
        f"home_server {name} {{\n{text}\n secret = x\n}}\n" + block(f"home_server_pool {name}", f"home_server = {name}")
        + block(f"realm {name}", "nostrip", f"acct_pool = {name}") for name, text in (
            ("v6", " ipv6addr = ::1"), ("tcp", " ipaddr = 10.0.0.1\n proto = tcp"), ("virtual", " virtual_server = x"),
            ("name", " ipaddr = home.example"), ("port", " ipaddr = 10.0.0.1\n port = x"))), (
        [(18, "IPv6"), (22, "v6 is not"), (26, "no home server of"), (29, "TCP"), (34, "tcp is not"), (38, "no home"), (40, "virtual"),
         (45, "virtual is not"), (49, "no home"), (52, "host name"), (56, "name is not"), (60, "no home"), (63, "no number"),
         (68, "port is not"), (72, "no home")]), WHOLE
    yield "a second home server, a fallback and policies of a pool", (
        F + F[F.index("home"):].replace("server h", "server i")
        + block("home_server_pool p", "home_server = h", "home_server = i", "fallback = f", "virtual_server = v") + F_REALM), (
            [(17, "i is another one"), (18, "fallback"), (19, "virtual")]), WHOLE
    yield "a pool that is not there", F_ALL + "realm b {\n nostrip\n acct_pool = q\n}\n", [(19, "no home_server_pool q")], WHOLE
    yield "patterns", F_ALL + 'realm "~.*\\.example$" {\n nostrip\n acct_pool = p\n}\n', [(17, "a pattern")], WHOLE
    yield "the realms NULL and DEFAULT", (
        F_ALL + block("realm NULL", "nostrip", "acct_pool = p") + block("realm DEFAULT", "nostrip", "acct_pool = p")), (
        [(21, "of an empty realm")]), WHOLE | BOTH
    yield "the realm DEFAULT", F_ALL + "realm DEFAULT {\n nostrip\n acct_pool = p\n}\n", [(17, "of an empty realm")], WHOLE | BOTH
    yield "the realm NULL", F_ALL + block("realm NULL", "nostrip", "acct_pool = p"), [], WHOLE | {"default": "h"}
    second = F[F.index("home"):].replace("server h", "server i").replace("2.9", "2.8") + "home_server_pool q {\n home_server = i\n}\n"
    yield "the realms DEFAULT and NULL of two home servers", (
        F_ALL + second + block("realm DEFAULT", "nostrip", "acct_pool = q") + block("realm NULL", "nostrip", "acct_pool = p")), (
            [(25, "of an empty realm")]), WHOLE | {"home": HOME + [("i", "192.0.2.8:1813", "def")], "default": "h", "other": "i"}
    yield "the realm DEFAULT that FreeRADIUS takes itself", F_ALL + block("realm DEFAULT") + block("realm NULL", "nostrip", "acct_pool = p"), (
        [(17, "takes its accounting itself")]), WHOLE | {"default": "h"}
    yield "the realm DEFAULT beside what is not carried over", (
        F_ALL + block("realm DEFAULT", "nostrip", "acct_pool = p") + block("realm LOCAL") + block('realm "~\\\\.org$"', "acct_pool = p")), (
            [(17, "of an empty realm"), (17, "not carried over too (2, the first realm LOCAL of"), (21, "takes its accounting"), (23, "a pattern")]), (
        WHOLE | BOTH)
    yield "a pattern that has each realm", (
        F_ALL + block("realm DEFAULT", "nostrip", "acct_pool = p") + block('realm "~.*"', "nostrip", "acct_pool = p")
        + block('realm "~."', "nostrip", "acct_pool = p")), (
            [(17, "never comes to it, since realm ~.* of"), (21, "of an empty realm"), (21, "carried over too (1, the first realm ~. of"),
             (25, "a pattern")]), WHOLE | BOTH
    yield "stripping", F_ALL.replace(" nostrip\n", ""), [(13, "without nostrip")], WHOLE
    yield "realms of its own", F_ALL + "realm LOCAL {\n}\nrealm b {\n auth_pool = p\n}\nrealm c {\n accthost = LOCAL\n}\nrealm d {\n"\
        " virtual_server = x\n}\n", [(17, "takes its accounting"), (19, "takes its"), (20, "no authentication (realms with it: 1)"),
                                    (22, "takes its"), (26, "virtual")], WHOLE
    yield "a realm of old", F_ALL + "realm b {\n nostrip\n accthost = 10.0.0.1:1646\n secret = x\n}\n", [], (
        WHOLE | {"home": HOME + [("10.0.0.1", "10.0.0.1:1646", "x")], "realm": REALM + [("b", "10.0.0.1")]})
    yield "one pool for both", F_ALL.replace("acct_pool", "pool"), [(15, "no authentication")], WHOLE
    yield "where it receives", F_ALL + """server s {
 listen {
  type = auth
 }
 listen {
  type = acct
  ipaddr = 192.0.2.3
  port = 1646
 }
 listen {
  type = acct
  ipv6addr = ::
 }
 listen {
  type = acct
  ipaddr = *
 }
 client b {
  ipaddr = 10.0.0.1
  secret = x
 }
}
""", [(1, "clients of its own"), (17, "does not run suffix"), (21, "one address and port"), (28, "IPv6")], (
        WHOLE | {"client": [("10.0.0.1", "x")], "listen": "0.0.0.0:1813"})
    yield "a list of clients that the listener names", F_ALL + """clients x {
 client b {
  ipaddr = 10.0.0.1
  secret = x
 }
}
clients y {
 client c {
  ipaddr = 10.0.0.2
  secret = x
 }
}
server s {
 listen {
  type = acct
  clients = x
 }
 client d {
  ipaddr = 10.0.0.3
  secret = x
 }
 preacct {
  suffix
 }
}
""", [(1, "clients of its own"), (23, "one list of clients"), (34, "no listener for accounting")], WHOLE | {"client": [("10.0.0.1", "x")]}
    yield "clients of two servers, of which one has no list", F_ALL + F_OF_ANOTHER_PORT + """server b {
 listen {
  type = acct
  port = 1813
 }
 client b {
  ipaddr = 192.0.2.1
  secret = own
 }
 preacct {
  suffix
 }
}
""", [(1, "192.0.2.1 is the client of"), (18, "one address and port")], (
        WHOLE | {"client": [("192.0.2.1", "own")], "listen": "0.0.0.0:1813"})
    yield "the listener at the port of accounting, and files of records", F_ALL + F_OF_ANOTHER_PORT + """server b {
 listen {
  type = acct
  port = 1813
 }
 listen {
  type = detail
  filename = x
 }
 preacct {
  suffix
 }
}
""", [(18, "one address and port"), (31, "type detail")], WHOLE | {"listen": "0.0.0.0:1813"}
    yield "policies", F_ALL + """server s {
 listen {
  type = acct
  ipaddr = *
  port = 0
 }
 preacct {
  group {
   suffix
  }
  if (&User-Name =~ /^\\{"}/ && ("%{a}" == '{')) {
   update request {
    &User-Name := "x"
   }
  }
 }
 accounting {
  detail
  ok
 }
 pre-proxy {
 }
 post-proxy {
  eap
 }
}
""", [(23, "preacct"), (33, "(detail)"), (39, "(eap)")], WHOLE | {"listen": "0.0.0.0:1813"}
    yield "a list of clients for one listener", F_ALL + "clients x {\n client b {\n  ipaddr = 10.0.0.1\n  secret = x\n }\n}\n", (
        [(17, "one list of clients")]), WHOLE
    yield "lines for all", "proxy_requests = no\nproxy server {\n default_fallback = yes\n dynamic = no\n}\n" + F_ALL, (
        [(1, "proxy_requests"), (3, "default_fallback")]), WHOLE
    yield "sections without a name", (
        F_ALL + block("home_server", "type = acct") + block("home_server_pool q", "home_server")
        + block("realm b", "nostrip", "acct_pool = q") + block("client", "secret = x")), (
            [(17, "no address"), (21, "not carried over"), (25, "no home server"), (27, "no address")]), WHOLE
    yield "nothing", "", [], None


def freeradius_faults():
    """Texts that FreeRADIUS does not read either, each with the line and a part of what is said."""
    yield "}", 1, "} without a section"
    yield "client a {\n client b {\n", 2, "ends within the section of line 2"
    yield "client a\n{\n}\n", 1, "neither a value"
    yield 'client a {\n secret = "abc\n}\n', 2, "quotation mark"
    yield "a = b c\n", 1, "something behind"
    yield "a = b\\\n", 1, "continued line"
    yield "a = ${b\n", 1, "has no }"
    yield "$INCLUDE none.conf", 1, "No such file"
    yield "$INCLUDE none/", 1, "No such file"
    yield "\n$INCLUDE .", 2, "a directory"
    yield "$INCLUDE radiusd.conf", 1, "includes itself"
    yield "$INCLUDE ${none}/x", 1, "not known here"
    yield "client a {\n $template x\n}\n", 2, "no template x"
    yield "a { " * 100, 1, "nested more than"
    yield "client a\0b {\n", 1, "a NUL octet"
    yield "x" * 9000, 1, "more than 8190 octets"
    yield "a = " + "x" * 4000 + "\nb = ${a}${a}\nc = ${b}${b}\n", 3, "more than 8191 octets"
