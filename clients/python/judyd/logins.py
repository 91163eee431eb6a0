"""Where the options of `judy` say that the server is, and the connections of its tenant there."""

import argparse
import getpass
import os
import ssl
import sys
import warnings
from typing import Callable, Optional, Tuple

from .client import Client, Visitor
from .errors import Closed, Error, NotAuthorized
from .session import Session
from .wire import Address, Wire


def token_of(options: argparse.Namespace) -> str:
    """The token: from the named file, from the environment's JUDY_TOKEN, or as typed."""
    if options.token_file:
        return first_line_of(options.token_file)
    return os.environ.get("JUDY_TOKEN") or typed_token("token of %s: " % options.user)


def first_line_of(path: str) -> str:
    """The first line of a file: a token."""
    with open(path, encoding="ascii") as file:
        return file.readline().rstrip("\r\n")


def typed_token(prompt: str) -> str:
    """A token that is typed at a terminal, without echo."""
    try:
        with warnings.catch_warnings():
            warnings.simplefilter("error", getpass.GetPassWarning)
            return getpass.getpass(prompt)
    except (EOFError, getpass.GetPassWarning):
        raise ValueError("no token, and no terminal to ask at: put it into JUDY_TOKEN, or name its file with --token-file") from None


def new_token(prompt: str) -> str:
    """A token for a table: typed at a terminal, or the next line of standard input."""
    if sys.stdin is not None and not sys.stdin.isatty():
        return sys.stdin.readline().rstrip("\r\n")
    return typed_token(prompt)


def address_of(options: argparse.Namespace) -> Tuple[Address, Optional[ssl.SSLContext]]:
    """The address of the options, and how to use TLS there."""
    if not options.tcp:
        return str(options.socket), None
    address = host_and_port(options.tcp)
    if address is None:
        raise ValueError("no HOST:PORT: %s" % options.tcp)
    return address, tls_of(options)


def host_and_port(text: str) -> Optional[Tuple[str, int]]:
    """A host and a port; None for other texts, as the path of a socket."""
    host, _, port = text.rpartition(":")
    return (host, int(port)) if host and port.isdigit() and "/" not in host else None


def tls_of(options: argparse.Namespace) -> Optional[ssl.SSLContext]:
    """How to use TLS to a host and a port."""
    try:
        return ssl.create_default_context(cafile=options.ca) if options.tls else None
    except OSError as e:  # it names no file, and an ssl.SSLError is one too
        raise ValueError("no certificates in %s: %s" % (options.ca, e.strerror or e)) from None


def connector(options: argparse.Namespace) -> Callable[[], Client]:
    """A function that makes the connection of the options."""
    address, tls = address_of(options)
    return lambda: Client(address, options.timeout or None, tls)


def wire_of(options: argparse.Namespace) -> Wire:
    """The connection for a dump or a load, logged in."""
    if not options.user:
        raise ValueError("whose arrays? -u TENANT")
    address, tls = address_of(options)
    return logged_in(options, address, tls, options.user, token_of(options))


def logged_in(options: argparse.Namespace, address: Address, tls: Optional[ssl.SSLContext], tenant: str, token: str) -> Wire:
    """A connection of a tenant with this token."""
    wire = Wire(address, options.timeout or None, tls)
    try:
        wire.log_in(("AUTH %s %s" % (tenant, token)).encode())
    except BaseException:
        wire.__exit__()
        raise
    return wire


def session_of(options: argparse.Namespace, is_held: bool) -> Session:
    """The session that sends the lines to the server, with one connection or with one for each line."""
    log_in = "AUTH %s %s" % (options.user, token_of(options)) if options.user else None
    return Session(connector(options), log_in, is_held)


def visitor_of(options: argparse.Namespace) -> Visitor:
    """The arrays of the tenant, for a long job."""
    return Visitor(visitor_client(options))


def visitor_client(options: argparse.Namespace) -> Callable[[], Client]:
    """A function that makes a connection that is logged in."""
    if not options.user:
        raise ValueError("whose arrays? -u TENANT")
    address, tls = address_of(options)
    token = token_of(options)
    return lambda: client_of(address, options.timeout or None, tls, options.user, token)


def client_of(address: Address, timeout: Optional[float], tls: Optional[ssl.SSLContext], tenant: Optional[str], token: Optional[str]) -> Client:
    """A connection, logged in if there is a tenant."""
    client = Client(address, timeout, tls)
    try:
        return client.auth(tenant, token) if tenant is not None and token is not None else client
    except BaseException:
        client.close()
        raise


def second_server(options: argparse.Namespace) -> Wire:
    """The connection to the server that the arrays go to."""
    there = host_and_port(options.to)
    token = first_line_of(options.new_token_file) if options.new_token_file else os.environ.get("JUDY_NEW_TOKEN") or token_of(options)
    try:
        return logged_in(options, there or options.to, tls_of(options) if there else None, options.user, token)
    except NotAuthorized:
        raise Error("the second server does not know this tenant and token: its table needs the tenant") from None
    except Closed as e:
        raise Error("the second server: %s; nothing was moved" % e) from e
