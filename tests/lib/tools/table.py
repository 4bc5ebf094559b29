"""A site of 30 clients, 5 home servers and 12 realms, as a table, and written for radsecproxy and for FreeRADIUS.

All addresses are the machine's own, so that each of the three proxies can serve the site here.
"""
import dataclasses

FRONT = "127.0.0.1"
# What each home server has besides: the numbers of examples/start.toml.
NUMBERS = {"window": 254, "first_wait": 6000, "queue": 65536, "book": 200_000}

# What the secrets of the clients have in them; the others are plain.
ODD = [
    'two "words" in marks', "it's", '"', "'", "100%", "%41%zz", "%", "a\\b", "\\\\server\\share", "#begins", "ends#", "a # b", " begins",
    "ends ", "grün", "€uro", "日本語", "naïve \"café\" 100% \\o/ #1", "emoji \U0001f511", "{brace}", "}", "comma, semicolon;", "$HOME ${x}",
    "=equals=", "%{User-Name}", "x" * 128, "z",
]
HOME_SECRETS = ['home "one"', "100% of\\home two", "#home's three", "ünd vier", "five"]
REALMS = ["example.org", "Example.NET", "a-b.example", "x_y.example", "bücher.example", "one", "two.example", "three.example",
          "four.example", "five.example", "six.example", "deep.under.the.example"]


@dataclasses.dataclass(frozen=True)
class Client:
    """A NAS: its address and its secret."""

    address: str
    secret: bytes


@dataclasses.dataclass(frozen=True)
class Home:
    """A home server: its name, its address and port, and its secret."""

    name: str
    address: str
    port: int
    secret: bytes


@dataclasses.dataclass(frozen=True)
class Realm:
    """A realm and the name of its home server."""

    name: str
    home: str


@dataclasses.dataclass(frozen=True)
class Site:
    """All of it, and the port that requests come to."""

    port: int
    clients: list
    homes: list
    realms: list

    def configuration(self):
        """What the configuration of rad_proxy has to say, as a reader of TOML gives it."""
        return {
            "listen": f"{FRONT}:{self.port}",
            "client": [{"address": one.address, "secret": one.secret.decode()} for one in self.clients],
            "home": [{"name": one.name, "address": f"{one.address}:{one.port}", "secret": one.secret.decode()} | NUMBERS for one in self.homes],
            "realm": [{"name": one.name, "home": one.home} for one in self.realms],
        }


def site(port, home_port):
    """The site, with the port of its proxy, and that of its home servers."""
    secrets = ODD + [f"a plain secret {number}" for number in range(30 - len(ODD))]
    clients = [Client(f"127.0.10.{number}", secret.encode()) for number, secret in enumerate(secrets, 1)]
    homes = [Home(f"home{number}", f"127.0.20.{number}", home_port, secret.encode()) for number, secret in enumerate(HOME_SECRETS, 1)]
    return Site(port, clients, homes, [Realm(name, homes[number % 5].name) for number, name in enumerate(REALMS)])


def _for_radsecproxy(secret, number):
    """A secret with `%` and digits for what has to be, and every second time for what is not ASCII."""
    made = bytearray()
    for octet in secret:
        if octet in b'"%' or octet < 32 or octet > 126 and number % 2:
            made += b"%%%02x" % octet
        else:
            made.append(octet)
    return b'"' + made + b'"'


def radsecproxy(made):
    """The files of radsecproxy, by their names."""
    files = {f"clients.d/none{number}.conf": b"# No client.\n" for number in range(10)}
    for number, one in enumerate(made.clients):
        name, host = (one.address, "") if number % 3 else (f"nas{number}", f"\thost {one.address}\n")
        text = f"client {name} {{\n{host}\ttype {'UDP' if number % 4 else 'udp'}\n".encode()
        secret = b"\tsecret" + (b" " if number % 5 else b"\t=\t") + _for_radsecproxy(one.secret, number)
        files[f"clients.d/{number:02}.conf"] = text + secret + b"\n}\n"
    servers = b""
    for number, one in enumerate(made.homes):
        where = f"\thost {one.address}:{one.port}\n" if number % 2 else f"\thost {one.address}\n\tport {one.port}\n"
        servers += f"server {one.name} {{\n\ttype udp\n{where}".encode() + b"\tSecret " + _for_radsecproxy(one.secret, number) + b"\n}\n"
    realms = ""
    for one in made.realms:
        name = "/@two\\.example$/" if one.name == "two.example" else one.name
        realms += f"realm {name} {{\n\taccountingServer {one.home}\n}}\n"
    main = f"# A site.\nLogLevel 3\nListenUDP {FRONT}:{made.port}\n\ninclude clients.d/*.conf\n".encode() + servers + realms.encode()
    return files | {"radsecproxy.conf": main}


def _for_freeradius(secret):
    """A secret between the marks that let it stand, or without any."""
    text = secret.decode()
    if not text.endswith("\\") and '\\"' not in text and "${" not in text:
        return b'"' + text.replace('"', '\\"').encode() + b'"'
    if not text.endswith("\\") and "\\'" not in text:
        return b"'" + text.replace("'", "\\'").encode() + b"'"
    return secret + b" "


def freeradius(made):
    """The files of FreeRADIUS, by their names."""
    clients = [b"", b""]
    for number, one in enumerate(made.clients):
        text = [
            f"client {one.address} {{\n",
            f"client nas{number} {{\n\tipaddr = {one.address}\n",
            f"client nas{number} {{\n\tipv4addr = {one.address}/32\n",
            f"client nas{number} {{\n\tipaddr = {one.address}\n\tnetmask = 32\n\t$template a_nas\n",
        ][number % 4]
        clients[number % 2] += text.encode() + b"\tsecret = " + _for_freeradius(one.secret) + b"\n}\n"
    proxy = b""
    for number, one in enumerate(made.homes):
        text = f"home_server {one.name} {{\n\tipaddr = {one.address}\n"
        text += f"\ttype = auth+acct\n\tport = {one.port - 1}\n" if number % 2 else "\t$template a_home\n"
        proxy += text.encode() + b"\tsecret = " + _for_freeradius(one.secret) + b"\n}\n"
        proxy += f"home_server_pool {one.name}_pool {{\n\thome_server = {one.name}\n}}\n".encode()
    for one in made.realms:
        proxy += f'realm "{one.name}" {{\n\tacct_pool = {one.home}_pool\n\tnostrip\n}}\n'.encode()
    templates = f"""templates {{
	a_home {{
		type = acct
		port = {made.homes[0].port}
	}}
	a_nas {{
		proto = udp
	}}
}}
"""
    main = f"""# A site.
prefix = /usr
libdir = ${{prefix}}/lib/freeradius
logdir = ${{confdir}}
run_dir = ${{confdir}}
log {{
	destination = stdout
}}
$INCLUDE templates.conf
$INCLUDE ${{confdir}}/proxy.conf
$INCLUDE clients.d/
modules {{
	always ok {{
		rcode = ok
	}}
	realm suffix {{
		format = suffix
		delimiter = "@"
	}}
}}
server accounting {{
	listen {{
		type = acct
		ipaddr = {FRONT}
		port = {made.port}
	}}
	preacct {{
		suffix
	}}
	accounting {{
		ok
	}}
}}
"""
    return {"radiusd.conf": main.encode(), "templates.conf": templates.encode(), "proxy.conf": proxy,
            "clients.d/1.conf": clients[0], "clients.d/2.conf": clients[1]}


def put(files, folder):
    """Writes files into a folder."""
    for name, octets in files.items():
        path = folder / name
        path.parent.mkdir(parents=True, exist_ok=True)
        path.write_bytes(octets)
