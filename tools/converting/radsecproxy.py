"""The configuration of radsecproxy 1.9: how it is written, and what it means to rad_proxy."""
import dataclasses
import glob
import ipaddress
import os
import re

from . import addresses, patterns, site
from .reading import Fault, Place, shown

# radsecproxy cuts longer lines.
LINE = 1023

# So many options are read at most.
OPTIONS = 200_000

# The port at which radsecproxy receives, and to which it sends, unless another one is written.
PORT = 1812

# Options that change nothing of what accounting requests become, or that rad_proxy does by its own keys.
WAITS = {b"retrycount", b"retryinterval", b"duplicateinterval", b"statusserver"}
QUIET = WAITS | {
    b"loglevel", b"logdestination", b"logthreadid", b"logmac", b"logkey", b"logfullusername", b"pidfile", b"verifyeap",
    b"fticksreporting", b"fticksmac", b"ftickskey", b"ftickssyslogfacility", b"fticksprefix", b"fticksviscountry", b"fticksvisinst",
    b"ipv4only", b"tcpkeepalive", b"tls", b"certificatenamecheck", b"matchcertificateattribute", b"type", b"secret", b"host", b"port",
    b"listenudp", b"server", b"accountingserver", b"accountingresponse", b"replymessage", b"ttlattribute", b"sourcetcp", b"sourcetls",
    b"sourcedtls", b"blockingstartup", b"sni", b"servername",
}
LOST = {
    b"listentcp": "rad_proxy has no TCP",
    b"listentls": "rad_proxy has no TLS",
    b"listendtls": "rad_proxy has no TLS",
    b"sourceudp": "the system picks the address and the ports that rad_proxy sends from",
    b"source": "the system picks the address and the ports that rad_proxy sends from",
    b"addttl": "rad_proxy has no loop prevention",
    b"rewrite": "rad_proxy does not rewrite",
    b"rewritein": "rad_proxy does not rewrite",
    b"rewriteout": "rad_proxy does not rewrite",
    b"rewriteattribute": "rad_proxy does not rewrite",
    b"dynamiclookupcommand": "rad_proxy looks up no home servers",
}
LOST_IF_ON = {b"loopprevention": "rad_proxy has no loop prevention", b"ipv6only": "rad_proxy has no IPv6"}


@dataclasses.dataclass(frozen=True)
class Option:
    """An option: its name as it is written, its value, and where it is."""

    word: bytes
    value: bytes
    place: Place

    @property
    def name(self):
        """The name in lower case."""
        return self.word.lower()


@dataclasses.dataclass
class Block:
    """A block, with its options in order."""

    kind: bytes
    name: bytes
    place: Place
    options: list

    def all(self, name):
        """The options of a name."""
        return [option for option in self.options if option.name == name]

    def value(self, name, default=None):
        """The value of the first option of a name."""
        return next((option.value for option in self.options if option.name == name), default)


def tokens(line, place):
    """The first three words of a line, as radsecproxy cuts them: a `#` begins a comment only as the first character."""
    words, rest = [], line
    while len(words) < 3:
        rest = rest.lstrip(b" \t\r\n")
        if not rest or not words and rest[:1] == b"#":
            break
        if rest[:1] in (b'"', b"'"):
            word, end, after = rest[1:].partition(rest[:1])
            if not end or after and after[:1] not in (b" ", b"\t", b"\r", b"\n"):
                raise Fault(f"{place}: a quotation mark has no partner at the end of a word")
        else:
            word = re.match(rb"[^ \t\r\n]*", rest)[0]
            after = rest[len(word):]
        words.append(word)
        rest = after[1:]
    return words


def unescaped(value, nul=False):
    """A value whose `%` and two hexadecimal digits stand for an octet."""
    def octet(found):
        return found[0] if found[1] == b"00" and not nul else bytes([int(found[1], 16)])
    return re.sub(rb"%([0-9A-Fa-f]{2})", octet, value)


class Lines:
    """The lines of a file, and in their place those of the files that they include."""

    def __init__(self, library, path):
        self.library = library
        self.last = Place(path, 1)
        self.files = [self._of(path, None)]

    def _of(self, path, asked):
        """The lines of one file, which is opened for the first of them."""
        with self.library.reading(path, asked) as lines:
            for number, line in enumerate(lines, 1):
                self.last = Place(path, number)
                if len(line) > LINE:
                    raise Fault(f"{self.last}: a line of more than {LINE} octets, which radsecproxy cuts")
                yield self.last, line

    def include(self, pattern, place):
        """Goes on with the files of a pattern, which is relative to the file of this place."""
        path = os.path.join(os.path.dirname(place.file) or b".", pattern)
        found = sorted(glob.glob(path)) if glob.has_magic(path) else [path]
        if not found:
            raise Fault(f"{place}: no file matches {shown(pattern)}")
        self.files += [self._of(name, place) for name in reversed(found)]

    def __iter__(self):
        while self.files:
            entry = next(self.files[-1], None)
            if entry is None:
                self.files.pop()
            else:
                yield entry


class Reader:
    """Reads a configuration into the options outside of blocks, and the blocks."""

    def __init__(self, library):
        self.library = library
        self.options = []
        self.blocks = []
        self.block = None
        self.count = 0

    def read(self, path):
        """Reads a file and those that it includes."""
        lines = Lines(self.library, path)
        for place, line in lines:
            words = tokens(line, place)
            if words:
                self._take(words, place, lines)
        if self.block:
            raise Fault(f"{lines.last}: the file ends within the block of line {self.block.place.line}")

    def _take(self, words, place, lines):
        if words[0].startswith(b"}"):
            if not self.block:
                raise Fault(f"{place}: }} without a block")
            self.block = None
            return
        if len(words) == 3 and words[1] == b"=":
            words = [words[0], words[2]]
        if len(words) == 2 and words[0].lower() == b"include":
            lines.include(words[1], place)
        elif len(words) == 2:
            self._add(Option(words[0], words[1], place))
        elif len(words) == 3 and words[2] == b"{":
            self._begin(words[0].lower(), words[1], place)
        else:
            raise Fault(f"{place}: neither an option with a value nor the beginning of a block")

    def _add(self, option):
        self.count += 1
        if self.count > OPTIONS:
            raise Fault(f"{option.place}: more than {OPTIONS} options")
        (self.block.options if self.block else self.options).append(option)

    def _begin(self, kind, name, place):
        if self.block:
            raise Fault(f"{place}: a block within the block of line {self.block.place.line}")
        self.block = Block(kind, name, place, [])
        self.blocks.append(self.block)


class Converter:
    """Carries a configuration over to a site."""

    def __init__(self, reader, made):
        self.reader = reader
        self.site = made
        self.servers = {}
        self.homes = {}
        self.caught = {}
        self.ignored = {}
        self.lost = []
        self.networks = []
        self.patterns = []
        self.rewrites = {block.name.lower() for block in reader.blocks if block.kind == b"rewrite"}

    def convert(self):
        """Carries everything over, and tells what was not."""
        self._tell_options("", self.reader.options)
        self._listen()
        kinds = {b"client": self._client, b"server": self._server, b"realm": self._realm}
        for block in self.reader.blocks:
            if block.kind in kinds:
                kinds[block.kind](block)
            elif block.kind not in (b"tls", b"rewrite"):
                self.site.tell(block.place, f"{site.named(shown(block.kind), block.name)}: no block of radsecproxy 1.9")
        self._tell_authentication()

    def _tell_options(self, what, options):
        for option in options:
            if option.name in LOST:
                self.site.tell(option.place, f"{what}{shown(option.word)}: {LOST[option.name]}")
            elif option.name in LOST_IF_ON:
                if option.value.lower() != b"off":
                    self.site.tell(option.place, f"{what}{shown(option.word)}: {LOST_IF_ON[option.name]}")
            elif option.name not in QUIET:
                self.site.tell(option.place, f"{what}{shown(option.word)}: no option of radsecproxy 1.9 that rad_convert knows")

    def _tell_authentication(self):
        places = [option.place for block in self.reader.blocks if block.kind == b"realm" for option in block.all(b"server")]
        if places:
            self.site.tell(places[0], f"server: rad_proxy does no authentication (lines for it in realms: {len(places)})")

    def _listen(self):
        found = []
        for option in (option for option in self.reader.options if option.name == b"listenudp"):
            host, port = addresses.host_and_port(shown(unescaped(option.value)))
            try:
                number = site.port_of(port) if port else PORT
                address = "0.0.0.0" if host in ("*", "0.0.0.0") else self.site.addresses_of(host, short=True)[0]
            except (addresses.Uncarried, site.Unfit) as why:
                self.site.tell(option.place, f"ListenUDP: {why}")
                continue
            found.append((number != 1813, len(found), address, number, option.place))
        if not found:
            self.site.listens("0.0.0.0", PORT, [f"radsecproxy's own port {PORT}, since no ListenUDP is carried over"])
            return
        _, _, address, port, place = min(found)
        self.site.listens(address, port, [f"ListenUDP, {place}"])
        for entry in sorted(found, key=lambda entry: entry[1]):
            if entry[4] != place:
                self.site.tell(entry[4], f"ListenUDP: rad_proxy receives at one address and port, which is that of {place}")

    def _is_datagrams(self, block, what):
        kind = block.value(b"type", b"").lower()
        if kind == b"udp":
            return True
        said = {b"tls": "rad_proxy has no TLS", b"dtls": "rad_proxy has no TLS", b"tcp": "rad_proxy has no TCP"}
        self.site.tell(block.place, f"{what}: " + (said.get(kind) or "it has no type that is known"))
        return False

    def _tell_default_rewrite(self, block, what, names):
        if block.all(b"rewritein") or block.all(b"rewrite"):
            return
        for name in names:
            if name in self.rewrites:
                self.site.tell(block.place, f"{what}: rewrite {shown(name)} applies to it, and rad_proxy does not rewrite")
                return

    def _hosts(self, block):
        return [(option.value, option.place) for option in block.all(b"host")] or [(block.name, block.place)]

    def _client(self, block):
        what = site.named("client", block.name)
        if not self._is_datagrams(block, what):
            return
        found = []
        for host, place in self._hosts(block):
            try:
                found += [(address, place) for address in self.site.addresses_of(shown(unescaped(host)), short=True)]
            except addresses.Uncarried as why:
                self.networks += [(network, block) for network in network_of(shown(unescaped(host)))]
                self.site.tell(place, f"{what}: {why}" + (f" ({shown(host)})" if host != block.name else ""))
        if not found:
            return
        self._tell_options(f"{what}: ", block.options)
        self._tell_default_rewrite(block, what, (b"defaultclient", b"default"))
        for address, place in found:
            first = self._first_with(address) or block
            said = [] if first is block else [f"with the secret of {site.named('client', first.name)}, {first.place}, which radsecproxy finds first"]
            secret = unescaped(first.value(b"secret", b""), nul=True)
            self.site.add_client(block.place, what, address, secret, [*said, *self._waits(block)])

    def _first_with(self, address):
        """The first client so far that is a block of addresses with this one."""
        number = ipaddress.IPv4Address(address)
        return next((block for network, block in self.networks if number in network), None)

    @staticmethod
    def _waits(block):
        names = sorted({shown(option.word) for option in block.options if option.name in WAITS - {b"statusserver"}})
        return [f"not carried over: {', '.join(names)}; rad_proxy has keys of its own (rad_proxy.toml(5))"] if names else []

    def _server(self, block):
        self.servers.setdefault(self._key(block.name), block)

    @staticmethod
    def _key(name):
        """What servers are known by: an IPv6 address with brackets and without is the same."""
        return name.lower().strip(b"[]")

    def _home(self, block):
        """The name of the home server that a server became, or None."""
        key = self._key(block.name)
        if key not in self.homes:
            self.homes[key] = self._made_home(block)
        return self.homes[key]

    def _made_home(self, block):
        what = site.named("server", block.name)
        if not self._is_datagrams(block, what):
            return None
        hosts = self._hosts(block)
        for host, place in hosts[1:]:
            self.site.tell(place, f"{what}: rad_proxy has one address for a home server ({shown(host)} is another one)")
        host, port = addresses.host_and_port(shown(unescaped(hosts[0][0])))
        try:
            number = site.port_of(port or shown(block.value(b"port", b"%d" % PORT)))
            found = self.site.addresses_of(host, short=True)
        except (addresses.Uncarried, site.Unfit) as why:
            self.site.tell(hosts[0][1], f"{what}: {why}")
            return None
        if len(found) > 1:
            self.site.tell(hosts[0][1], f"{what}: the name has {len(found)} addresses, and rad_proxy gets {found[0]}")
        self._tell_options(f"{what}: ", block.options)
        self._tell_default_rewrite(block, what, (b"defaultserver", b"default"))
        secret = unescaped(block.value(b"secret", b""), nul=True)
        return self.site.add_home(block.place, what, block.name, f"{found[0]}:{number}", secret, self._waits(block))

    def _realm(self, block):
        what = site.named("realm", block.name)
        name, kinds = self._literal(block.name), patterns.each(block.name)
        wanted = {patterns.REALM} if name is not None else kinds or {patterns.REALM, patterns.BARE}
        if wanted <= self.caught.keys():
            first = self.caught[max(wanted)]
            before = f"{site.named('realm', first.name)} of {first.place}"
            self.site.tell(block.place, f"{what}: radsecproxy never comes to it, since {before} is before it")
        elif kinds:
            self._catch_all(block, what, kinds)
        elif not (self._pattern(block, what) if name is None else self._listed(block, what, name)):
            self.lost.append(block)

    def _catch_all(self, block, what, kinds):
        """Takes all that is left of the realms, or of what has none, to the home server of a block."""
        fresh = kinds - self.caught.keys()
        self.caught |= dict.fromkeys(fresh, block)
        home = self._home_of_block(block, what)
        if home and patterns.BARE in fresh:
            self.site.default_home = home
            self.site.default_comment = [f"{what}, {block.place}, for requests without a realm, and those without a User-Name, which radsecproxy drops"]
        if home and patterns.REALM in fresh:
            self.site.other_home = home
            self.site.other_comment = [f"{what}, {block.place}, for the realms that are not listed"]
            self.site.tell(block.place, f"{what}: rad_proxy drops requests of an empty realm, as of `bob@`")
        lost = self.lost if patterns.REALM in fresh else self.patterns
        if home and lost:
            self.site.tell(block.place, f"{what}: its home server gets what is before it and not carried over too ({len(lost)}, "
                                        f"the first {site.named('realm', lost[0].name)} of {lost[0].place})")

    def _pattern(self, block, what):
        """Tells of a pattern, which is not carried over."""
        self.patterns.append(block)
        if block.all(b"accountingserver"):
            self.site.tell(block.place, f"{what}: a pattern; rad_proxy has realms by their whole name alone")
        elif not self._tells_of_response(block, what):
            self.site.tell(block.place, f"{what}: a pattern; of what it keeps away rad_proxy knows whole realms alone")
        return False

    def _tells_of_response(self, block, what):
        if block.value(b"accountingresponse", b"off").lower() != b"on":
            return False
        self.site.tell(block.place, f"{what}: AccountingResponse: rad_proxy answers nothing by itself")
        return True

    def _listed(self, block, what, name):
        """Carries a realm over, and gives whether its requests lead where they led."""
        if name.lower() in self.ignored:
            self.site.tell(block.place, f"{what}: radsecproxy never comes to it, since {self.ignored[name.lower()]} has this realm")
            return True
        first, said = self._first_pattern(name, what, block)
        if said:
            self.site.tell(block.place, said)
            return False
        if not block.all(b"accountingserver") and not first:
            self.ignored[name.lower()] = block.place
            self._tells_of_response(block, what)
            return False
        home = self._home_of_block(first or block, what)
        minding = next((one for one in self.patterns if patterns.minds_names(one.name, name)), None)
        if minding and home and name.lower() not in self.site.places["realm"]:
            self.site.tell(block.place, f"{what}: of a name with an `@` radsecproxy may choose otherwise, by realm {shown(minding.name)} of {minding.place}")
        said = [f"at the home server of {site.named('realm', first.name)}, {first.place}, which radsecproxy finds first"] if first else []
        return bool(home) and self.site.add_realm(block.place, what, name, home, said)

    def _home_of_block(self, block, what):
        """The home server of a block for accounting, or None. Of several, the first one is carried over."""
        servers = block.all(b"accountingserver")
        for option in servers[1:]:
            self.site.tell(option.place, f"{what}: {site.SECOND} ({shown(option.value)} is another one)")
        if not servers:
            self._tells_of_response(block, what)
        return self._home_of(servers[0], what) if servers else None

    def _first_pattern(self, name, what, block):
        """The first pattern so far that takes the requests of a realm, if any does; and what is told where the realm can't be carried over."""
        for pattern in self.patterns if name is not None else []:
            found = patterns.taken(pattern.name, name)
            if found == patterns.SOME:
                return None, f"{what}: realm {shown(pattern.name)} of {pattern.place} may take requests of it first, so it is not carried over"
            if found == patterns.ALL and not pattern.all(b"accountingserver"):
                return None, f"{what}: radsecproxy never comes to it, since {pattern.place} has this realm"
            if found == patterns.ALL:
                return pattern, None
        return None, None

    def _home_of(self, option, what):
        block = self.servers.get(self._key(unescaped(option.value)))
        if block is None:
            self.site.tell(option.place, f"{what}: there is no server {shown(option.value)} before it")
            return None
        home = self._home(block)
        if home is None:
            self.site.tell(option.place, f"{what}: its home server {shown(option.value)} is not carried over")
        return home

    @staticmethod
    def _literal(name):
        """The realm that a name stands for, or None if it is a pattern of more than one whole name.

        radsecproxy makes a pattern of each name, so `*.example` is one too.
        """
        if name == b"*":
            return None
        if not name.startswith(b"/"):
            return None if re.search(rb"[*+?()\[\]{}|^$\\]", name) else name
        pattern = name[1:-1] if len(name) > 1 and name.endswith(b"/") else name[1:]
        if re.fullmatch(rb"@(?:[A-Za-z0-9_-]|\\[.-])+\$", pattern):
            return pattern[1:-1].replace(b"\\", b"")
        return None


def network_of(text):
    """The IPv4 addresses of a client that is a block of them, as a list of one network, or of none."""
    if text in ("*", "0.0.0.0"):
        text = "0.0.0.0/0"
    try:
        return [ipaddress.IPv4Network(text, strict=False)]
    except ValueError:
        return []


def convert(library, path, made):
    """Carries the configuration at a path over to a site."""
    reader = Reader(library)
    reader.read(path)
    Converter(reader, made).convert()
    return f"From radsecproxy's {shown(path)}, by rad_convert."
