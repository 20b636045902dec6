"""Requests to the editors' address of a dictcat server, by HTTP, or by HTTPS through the front before it.

What the scripts of this folder share; it is no program. An address is one of

  HOST:PORT                    a server's own, by HTTP, without a password
  http://HOST:PORT             the same
  https://[USER@]HOST:PORT     a front's, by HTTPS: its certificate is checked, and USER's password is sent

The password is the first line of --password-file, or else DICTCAT_PASSWORD of the environment; it stands in no address,
since every user of a machine sees the words of its programs. A certificate has to be for HOST, and by one of the
machine's authorities, or by the one of --ca alone. Python 3, its standard library alone. Nothing of it is proved.
"""
import base64, http.client, os, re, ssl, urllib.parse

PASSWORD = "DICTCAT_PASSWORD"   # the variable of the environment that has it, where no file does
PATIENCE = 20   # seconds in which a connection has to stand, and TLS on it; an answer may take longer
FORM = re.compile(r"(?:(?P<scheme>https?)://(?:(?P<user>[^@/]*)@)?)?(?P<host>\[[0-9A-Fa-f:.]+\]|[^][:/@]+):(?P<port>[0-9]{1,5})/?")


class AddressFault(ValueError):
    """The address, or an option that goes with it, isn't one."""


def add_options(cli):
    """Adds the two options that go with an address to an argparse parser."""
    cli.add_argument("--password-file", metavar="PATH", help=f"the password is its first line; else ${PASSWORD}")
    cli.add_argument("--ca", metavar="PATH", help="trust certificates by this authority alone, in PEM")


def from_options(address, options):
    """The editors at the address, by what add_options added. It raises AddressFault."""
    return Editors(address, options.password_file, options.ca)


class Editors:
    """The editors' address of one server, or the front's before it."""

    def __init__(self, address, password_file=None, ca=None):
        self.address, found = address, FORM.fullmatch(address)
        if not found or int(found["port"]) > 65535:
            raise AddressFault(f"{address!r} isn't HOST:PORT or https://[USER@]HOST:PORT")
        self.host, self.port = found["host"].strip("[]"), int(found["port"])
        try:
            self.host.encode("idna")
        except UnicodeError:
            raise AddressFault(f"{self.host!r} is no name of a host") from None
        user = found["user"] and urllib.parse.unquote(found["user"])
        is_safe = found["scheme"] == "https"
        if not is_safe and (user or password_file or ca):
            raise AddressFault(f"{address!r} isn't by https, and a password or a certificate goes by nothing else")
        if user and ":" in user:
            raise AddressFault(f"a password doesn't stand in an address: it goes into --password-file, or ${PASSWORD}")
        if password_file and not user:
            raise AddressFault(f"{address!r} has no USER whose password that of {password_file!r} is")
        self.tls = trusting(ca) if is_safe else None
        self.headers = basic(user, password(password_file)) if user else {}

    def ask(self, method, path, request_id=None, body=None, timeout=600):
        """The status and the body of the answer. It raises OSError, or http.client.HTTPException."""
        connection = self.connected(timeout)
        try:
            headers = {**self.headers, **({} if request_id is None else {"Request-Id": request_id})}
            try:
                connection.request(method, path, body, headers)
            except (BrokenPipeError, ConnectionResetError):
                pass   # A front may answer, and close, before it has all of the body.
            answer = connection.getresponse()
            return answer.status, answer.read()
        finally:
            connection.close()

    def connected(self, timeout):
        """A connection to the address."""
        most = min(timeout, PATIENCE)
        if self.tls:
            connection = http.client.HTTPSConnection(self.host, self.port, timeout=most, context=self.tls)
        else:
            connection = http.client.HTTPConnection(self.host, self.port, timeout=most)
        connection.connect()
        connection.sock.settimeout(timeout)
        return connection


def trusting(ca):
    """What tells whether a certificate is to be trusted."""
    try:
        return ssl.create_default_context(cafile=ca)
    except OSError as fault:
        raise AddressFault(f"no certificate of an authority can be read from {ca!r}: {fault.strerror or fault}") from None


def password(path):
    """The password: the file's first line, or what the environment has."""
    if not path:
        if PASSWORD not in os.environ:
            raise AddressFault(f"there is no password: give it by --password-file, or by ${PASSWORD}")
        return os.environ[PASSWORD]
    try:
        with open(path, encoding="utf-8") as file:
            return file.readline().rstrip("\r\n")
    except (OSError, UnicodeDecodeError) as fault:
        raise AddressFault(f"the password can't be read from {path!r}: {fault}") from None


def basic(user, said):
    """The header that has a user's password."""
    return {"Authorization": "Basic " + base64.b64encode(f"{user}:{said}".encode()).decode()}


def told(fault):
    """What a fault of `ask` says, in one line, and what to do where that is known."""
    if isinstance(fault, ssl.SSLCertVerificationError):
        return f"its certificate isn't trusted here: {fault.verify_message}; see --ca"
    if isinstance(fault, ssl.SSLError) and "WRONG_VERSION_NUMBER" in str(fault):
        return "it doesn't speak HTTPS there"
    if isinstance(fault, http.client.RemoteDisconnected):
        return "it closed the connection without an answer"
    if isinstance(fault, TimeoutError):
        return "no TLS in time: is it a server's own address, which speaks HTTP?" if "handshake" in str(fault) else "no answer in time"
    return " ".join(str(fault).split()) or type(fault).__name__


def said(status, body):
    """What an answer other than 200 says, in one line, and what to do where that is known."""
    if status == 401:
        return "401: the front wants a user's password, and this isn't one: see https://USER@HOST:PORT"
    if status == 411:
        return "411: the front wants the length of the body"
    return f"{status} {body.decode('utf-8', 'replace').strip()}".rstrip()
