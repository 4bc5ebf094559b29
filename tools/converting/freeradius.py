"""What the configuration of FreeRADIUS 3 means to rad_proxy."""
import os

from . import addresses, patterns, sections, site
from .reading import Fault, shown

# The ports of accounting and of authentication.
ACCOUNTING = 1813
AUTHENTICATION = 1812

# Of these types of home servers, the one takes accounting at its port, the other at the next one.
AT_PORT = {b"acct"}
NEXT_PORT = {b"auth+acct"}

# The types of listen sections that receive accounting.
RECEIVING = {b"acct", b"auth+acct"}

# The files of a folder that has no radiusd.conf.
FILES = (b"templates.conf", b"proxy.conf", b"clients.conf")

ADDRESS = (b"ipaddr", b"ipv4addr", b"ipv6addr")
WAITS = (b"response_window", b"response_timeouts", b"max_outstanding", b"zombie_period", b"status_check", b"ping_check",
         b"ping_interval", b"check_interval", b"check_timeout", b"status_check_timeout", b"num_answers_to_alive", b"revive_interval")

# What the module that cuts a User-Name may have, and what is told of another value.
NO = (b"no", b"false", b"0", b"off")
SUFFIX = {
    b"delimiter": ((b"@",), "rad_proxy has `@`"),
    b"format": ((b"suffix",), "rad_proxy has the realm at the end"),
    b"ignore_default": (NO, "rad_proxy has other_home for all that is not listed"),
    b"ignore_null": (NO, "rad_proxy has default_home for what has no realm"),
}

# What these sections may run without a change of what becomes of a request.
PLAIN = {b"suffix", b"acct_unique", b"preprocess", b"ok", b"noop"}
SECTIONS = {
    b"preacct": "what it does before a request is forwarded",
    b"accounting": "what it does with a request itself",
    b"pre-proxy": "what it does to a request that is forwarded",
    b"post-proxy": "what it does to a reply",
}


class Converter:
    """Carries a configuration over to a site."""

    def __init__(self, root, made):
        self.root = root
        self.site = made
        self.homes = {}
        self.realm_homes = {}
        self.servers = [root, *root.sections(b"server")]
        self.listeners = [(server, part) for server in self.servers for part in server.sections(b"listen") if self._takes_records(part)]

    def convert(self):
        """Carries everything over, and tells what was not."""
        self._tell_proxy()
        self._listen()
        known = self._lists()
        for server in known + [one for one in self.servers if one not in known]:
            self._clients(server, server in known)
        for part in self.root.sections(b"clients"):
            if part not in known:
                self.site.tell(part.place, f"{site.named('clients', part.name)}: rad_proxy has one list of clients")
        self._realms()
        for server in self.servers:
            self._policies(server)
        self._tell_authentication()

    def _tell_proxy(self):
        for server in self.root.sections(b"proxy"):
            for name, said in ((b"default_fallback", site.SECOND),
                               (b"dynamic", "rad_proxy reads its home servers at start alone")):
                pair = server.pair(name)
                if pair and (pair.value or b"yes").lower() in (b"yes", b"true", b"1", b"on"):
                    self.site.tell(pair.place, f"{shown(name)}: {said}")
        pair = self.root.pair(b"proxy_requests")
        if pair and (pair.value or b"").lower() in (b"no", b"false", b"0", b"off"):
            self.site.tell(pair.place, "proxy_requests: FreeRADIUS forwards nothing here, and rad_proxy everything")

    def _tell_authentication(self):
        realms = [realm for realm in self.root.sections(b"realm") if realm.pair(b"auth_pool", b"pool", b"home_server_pool", b"authhost")]
        if realms:
            pair = realms[0].pair(b"auth_pool", b"pool", b"home_server_pool", b"authhost")
            self.site.tell(pair.place, f"{shown(pair.name)}: rad_proxy does no authentication (realms with it: {len(realms)})")

    # Where requests are received.

    def _listen(self):
        for part in (part for server in self.servers for part in server.sections(b"listen") if self._value(part, b"type") == b"detail"):
            self.site.tell(part.place, "listen: type detail: rad_proxy reads no files of records")
        found = []
        for listener in self.listeners:
            target = self._listened(listener[1])
            found += [(target, listener[1].place, listener)] if target else []
        if not found:
            self.site.listens("0.0.0.0", ACCOUNTING, ["the port of accounting, since no listen section for it is carried over"])
            return
        target, kept, front = min(found, key=lambda one: one[0][1] != ACCOUNTING)
        self.listeners = [front, *self.listeners]
        self.site.listens(*target, [f"listen, {kept}"])
        for _, place, _ in found:
            if place != kept:
                self.site.tell(place, f"listen: rad_proxy receives at one address and port, which is that of {kept}")

    def _listened(self, part):
        """The address and port of a listen section, or None."""
        if self._value(part, b"proto", b"udp") != b"udp" or part.section(b"tls"):
            self.site.tell(part.place, "listen: rad_proxy has neither TCP nor TLS")
            return None
        pair = part.pair(*ADDRESS)
        try:
            text = self._text(pair) if pair else "*"
            if pair and pair.name == b"ipv6addr":
                raise addresses.Uncarried(addresses.VERSION_6)
            address = "0.0.0.0" if text in ("*", "0.0.0.0") else self.site.addresses_of(text)[0]
            port = self._port(part) or ACCOUNTING
        except (addresses.Uncarried, site.Unfit) as why:
            self.site.tell((pair or part).place, f"listen: {why}")
            return None
        found = part.pair(b"interface")
        if found:
            self.site.tell(found.place, "listen: interface: rad_proxy listens at an address")
        return address, port

    def _receives(self, server):
        """Whether a server listens for accounting."""
        return any(map(self._takes_records, server.sections(b"listen")))

    def _takes_records(self, part):
        """Whether a listen section is for accounting."""
        return self._value(part, b"type") in RECEIVING

    # Values of sections.

    def _value(self, section, name, default=None):
        pair = section.pair(name)
        return default if pair is None or pair.value is None else pair.value

    @staticmethod
    def _text(pair):
        if pair.why:
            raise site.Unfit(pair.why)
        return shown(pair.value or b"")

    def _secret(self, section):
        pair = section.pair(b"secret")
        if pair and pair.why:
            raise site.Unfit(f"secret: {pair.why}")
        return (pair.value if pair else None) or b""

    def _port(self, section):
        """The port of a section, which is None where it is 0 or not written."""
        pair = section.pair(b"port")
        text = self._text(pair) if pair else "0"
        return None if text == "0" else site.port_of(text)

    def _lost(self, section, what, said):
        for name, text in said.items():
            pair = section.pair(name)
            if pair:
                self.site.tell(pair.place, f"{what}: {shown(name)}: {text}")

    # Clients.

    def _lists(self):
        """The sections whose clients a listener for accounting knows, that of the one that is carried over first. It knows those of the
        list that it names, or else those of its server alone, where that has some."""
        found = []
        for server, listener in self.listeners or [(self.root, self.root)]:
            named = self.root.section(b"clients", self._value(listener, b"clients")) if listener.pair(b"clients") else None
            part = named or (server if server.section(b"client") else self.root)
            found += [part] if part not in found else []
        return found

    def _clients(self, server, is_known):
        for client in server.sections(b"client"):
            what = site.named("client", client.name)
            try:
                found = self._client_addresses(client)
                secret = self._secret(client)
            except (addresses.Uncarried, site.Unfit) as why:
                self.site.tell((client.pair(*ADDRESS) or client).place, f"{what}: {why}")
                continue
            if not is_known:
                said = "each listener has clients of its own" if server is self.root else "no listener for accounting has its list"
                self.site.tell(client.place, f"{what}: {said}")
                continue
            self._lost(client, what, {
                b"virtual_server": "rad_proxy has no virtual servers",
                b"src_ipaddr": "rad_proxy answers from the address that a request came to",
            })
            self.site.add_client(client.place, what, found[0], secret)

    def _client_addresses(self, client):
        kind = self._value(client, b"proto", b"udp")
        if kind not in (b"udp", b"*"):
            raise site.Unfit("rad_proxy has neither TCP nor TLS")
        if client.pair(b"dynamic_clients"):
            raise site.Unfit("rad_proxy has no dynamic clients")
        pair, netmask = client.pair(*ADDRESS), client.pair(b"netmask")
        if pair and pair.name == b"ipv6addr":
            raise addresses.Uncarried(addresses.VERSION_6)
        text = self._text(pair) if pair else shown(client.name)
        found = self.site.addresses_of(text, prefix=self._text(netmask) if netmask else None)
        if len(found) > 1:
            what = site.named("client", client.name)
            self.site.tell(client.place, f"{what}: the name has {len(found)} addresses, of which FreeRADIUS takes one")
        return found

    # Home servers.

    def _home(self, name):
        """The name of the home server for accounting that a home_server became, or None."""
        if name not in self.homes:
            found = [one for server in self.servers for one in server.sections(b"home_server") if one.name == name]
            taken = [one for one in found if self._value(one, b"type", b"auth+acct") in AT_PORT | NEXT_PORT]
            self.homes[name] = self._made_home(taken[0]) if taken else None
            if not taken and found:
                self.site.tell(found[0].place, f"{site.named('home_server', name)}: its type has no accounting")
        return self.homes[name]

    def _made_home(self, home):
        what = site.named("home_server", home.name)
        pair = home.pair(*ADDRESS)
        try:
            if home.section(b"tls") or self._value(home, b"proto", b"udp") != b"udp":
                raise site.Unfit("rad_proxy has neither TCP nor TLS")
            if not pair:
                raise site.Unfit("rad_proxy has no virtual servers" if home.pair(b"virtual_server") else "it has no address")
            if pair.name == b"ipv6addr":
                raise addresses.Uncarried(addresses.VERSION_6)
            found = self.site.addresses_of(self._text(pair))
            port = self._home_port(home)
            secret = self._secret(home)
        except (addresses.Uncarried, site.Unfit) as why:
            self.site.tell((pair or home).place, f"{what}: {why}")
            return None
        if len(found) > 1:
            self.site.tell(pair.place, f"{what}: the name has {len(found)} addresses, and rad_proxy gets {found[0]}")
        self._lost(home, what, {b"src_ipaddr": "the system picks the address that rad_proxy sends from"})
        names = [shown(name) for name in WAITS if home.pair(name)]
        said = [f"not carried over: {', '.join(names)}; rad_proxy has keys of its own (rad_proxy.toml(5))"] if names else []
        return self.site.add_home(home.place, what, home.name, f"{found[0]}:{port}", secret, said)

    def _home_port(self, home):
        port = self._port(home)
        if self._value(home, b"type", b"auth+acct") in AT_PORT:
            return port or ACCOUNTING
        return site.port_of(str((port or AUTHENTICATION) + 1))

    def _pool_home(self, pair, what):
        """The first home server of the pool that a realm names, or None."""
        pool = self.root.section(b"home_server_pool", pair.value or b"") or self.root.section(b"server_pool", pair.value or b"")
        if pool is None:
            self.site.tell(pair.place, f"{what}: there is no home_server_pool {shown(pair.value or b'')}")
            return None
        key = id(pool)
        if key not in self.realm_homes:
            self.realm_homes[key] = self._made_pool(pool)
        if self.realm_homes[key] is None:
            self.site.tell(pair.place, f"{what}: no home server of its pool {shown(pool.name)} is carried over")
        return self.realm_homes[key]

    def _made_pool(self, pool):
        what = site.named("home_server_pool", pool.name)
        self._lost(pool, what, {b"fallback": site.SECOND, b"virtual_server": "rad_proxy has no virtual servers"})
        kept = None
        for pair in pool.pairs(b"home_server"):
            if kept:
                self.site.tell(pair.place, f"{what}: {site.SECOND} ({shown(pair.value or b'')} is another one)")
                continue
            kept = self._home(pair.value or b"")
            if kept is None:
                self.site.tell(pair.place, f"{what}: its home server {shown(pair.value or b'')} is not carried over")
        return kept

    # Realms.

    def _realms(self):
        special, lost = {}, []
        for realm in self.root.sections(b"realm"):
            kind = b"~" if _is_each(realm.name) else realm.name
            if kind in (b"NULL", b"DEFAULT", b"~") and kind not in special:
                special[kind] = realm
            elif not self._listed(realm):
                lost.append(realm)
        first, default = special.get(b"~"), special.get(b"DEFAULT")
        if first and default:
            self.site.tell(default.place, f"realm DEFAULT: FreeRADIUS never comes to it, since {site.named('realm', first.name)} of {first.place} "
                                          "has each realm")
        self._default(special.get(b"NULL"), first or default, lost)

    def _listed(self, realm):
        """Carries a realm over, and gives whether its requests lead where they led."""
        what = site.named("realm", realm.name)
        if realm.name.startswith(b"~"):
            self.site.tell(realm.place, f"{what}: a pattern; rad_proxy has realms by their whole name alone")
            return False
        home = self._realm_home(realm, what)
        if home:
            self._tell_stripping(realm, what)
        return bool(home) and self.site.add_realm(realm.place, what, realm.name, home)

    def _default(self, null, default, lost):
        """Requests without a realm go to the home server of NULL, or else of DEFAULT, and those of other realms to that of DEFAULT."""
        homes = {realm: self._special_home(realm) for realm in (null, default) if realm}
        if homes.get(null or default):
            self.site.default_home = homes[null or default]
            what = site.named("realm", (null or default).name)
            self.site.default_comment = [f"{what}, {(null or default).place}, for requests without a realm, and those without a User-Name"]
        if homes.get(default):
            self.site.other_home = homes[default]
            what = site.named("realm", default.name)
            self.site.other_comment = [f"{what}, {default.place}, for the realms that are not listed"]
            self.site.tell(default.place, f"{what}: rad_proxy drops requests of an empty realm, as of `bob@`")
            if lost:
                self.site.tell(default.place, f"{what}: its home server gets what is not carried over too ({len(lost)}, "
                                              f"the first {site.named('realm', lost[0].name)} of {lost[0].place})")

    def _special_home(self, realm):
        what = site.named("realm", realm.name)
        home = self._realm_home(realm, what)
        if home:
            self._tell_stripping(realm, what)
        return home

    def _tell_stripping(self, realm, what):
        pair = realm.pair(b"nostrip")
        if pair is None or pair.value is not None:
            self.site.tell(realm.place, f"{what}: without nostrip the realm is cut off the User-Name, and rad_proxy does not rewrite")

    def _realm_home(self, realm, what):
        pair = realm.pair(b"acct_pool", b"pool", b"home_server_pool")
        if pair:
            return self._pool_home(pair, what)
        if realm.pair(b"virtual_server"):
            self.site.tell(realm.pair(b"virtual_server").place, f"{what}: rad_proxy has no virtual servers")
            return None
        pair = realm.pair(b"accthost")
        if pair and pair.value != b"LOCAL":
            return self._old_home(realm, pair, what)
        self.site.tell(realm.place, f"{what}: FreeRADIUS takes its accounting itself, and rad_proxy does not")
        return None

    def _old_home(self, realm, pair, what):
        """The home server that a realm names itself, as in FreeRADIUS 1."""
        try:
            host, port = addresses.host_and_port(self._text(pair))
            number = site.port_of(port) if port else ACCOUNTING
            found = self.site.addresses_of(host)
            secret = self._secret(realm)
        except (addresses.Uncarried, site.Unfit) as why:
            self.site.tell(pair.place, f"{what}: {why}")
            return None
        key = found[0], number
        if key not in self.realm_homes:
            self.realm_homes[key] = self.site.add_home(pair.place, f"accthost of {what}", host.encode(), f"{found[0]}:{number}", secret)
        return self.realm_homes[key]

    # What is run beside forwarding.

    def _policies(self, server):
        if server is self.root or not self._receives(server):
            return
        what = site.named("server", server.name)
        before = server.section(b"preacct")
        if not before or not _runs(before, b"suffix"):
            said = "it does not run suffix, so FreeRADIUS does not choose by the realm of a User-Name"
            self.site.tell((before or server).place, f"{what}: {said}")
        for kind, said in SECTIONS.items():
            part = server.section(kind)
            names = [shown(_called(item)) for item in part.items if _called(item) not in PLAIN] if part else []
            if names:
                some = ", ".join(names[:8]) + (" .." if len(names) > 8 else "")
                self.site.tell(part.place, f"{what}: {shown(kind)}: {said} ({some})")


def _is_each(name):
    """Whether the name of a realm is a pattern that has each realm, and so what has none too."""
    return name.startswith(b"~") and patterns.BARE in patterns.each(b"/" + name[1:])


def _called(item):
    return item.kind if isinstance(item, sections.Section) else item.name


def _runs(part, name):
    """Whether a section runs a module, at any depth."""
    return any(_called(item) == name or isinstance(item, sections.Section) and _runs(item, name) for item in part.items)


def _paths(path):
    """The files to begin with: one file, or those of a folder."""
    if not os.path.isdir(path):
        return [path]
    main = os.path.join(path, b"radiusd.conf")
    if os.path.lexists(main):
        return [main]
    found = [os.path.join(path, name) for name in FILES]
    found = [name for name in found if os.path.lexists(name)]
    if not found:
        raise Fault(f"{shown(path)}: neither radiusd.conf nor proxy.conf nor clients.conf is in it")
    return found


def _tell_suffix(library, root, path, made):
    """Tells of what the module that cuts a User-Name does otherwise, in radiusd.conf or in the file of its module."""
    parts = [part for modules in root.sections(b"modules") for part in modules.sections(b"realm")]
    if os.path.isfile(path):
        reader = sections.Reader(library)
        reader.read(path)
        parts += reader.root.sections(b"realm")
    for part in (part for part in parts if part.name == b"suffix"):
        for name, (values, said) in SUFFIX.items():
            pair = part.pair(name)
            if pair and (pair.value or b"").lower() not in values:
                made.tell(pair.place, f"{site.named('realm', part.name)}: {shown(name)} {shown(pair.value or b'')}: {said}")


def convert(library, path, made):
    """Carries the configuration of a folder, or of a file, over to a site."""
    paths = _paths(path)
    reader = sections.Reader(library)
    reader.read(paths[0])
    for more in paths[1:]:
        reader.read_into(more, reader.root)
    Converter(reader.root, made).convert()
    _tell_suffix(library, reader.root, os.path.join(os.path.dirname(paths[0]), b"mods-enabled", b"realm"), made)
    return f"From FreeRADIUS's {shown(path)}, by rad_convert."
