"""A page with a form, on a port of its own, which it prints first. It says who has signed up, or what is wrong with the form.

usage: form.py [flask]
"""

import dataclasses
import sys
import typing
import wsgiref.simple_server

import serde_qs


@dataclasses.dataclass
class Address:
    city: str


@dataclasses.dataclass
class User:
    name: str
    age: typing.Annotated[int, serde_qs.Shape("u8")]
    address: typing.Optional[Address]
    emails: typing.List[str] = dataclasses.field(default_factory=list)


@dataclasses.dataclass
class Form:
    user: User


def answer(body):
    """The status and the text for what was sent."""
    try:
        user = serde_qs.read_as(Form, body, **serde_qs.WEB).user
    except serde_qs.QuerystringError as error:
        return 400, f"{error.path}: {error}\n"
    return 200, f"{user.name}, {user.age}, of {user.address.city}: {', '.join(user.emails)}\n"


def page(environ, start_response):
    status, text = answer(environ["wsgi.input"].read(int(environ["CONTENT_LENGTH"])))
    start_response("200 OK" if status == 200 else "400 Bad Request", [("Content-Type", "text/plain; charset=utf-8")])
    return [text.encode()]


def flask_page():
    import flask

    app = flask.Flask(__name__)

    @app.post("/")
    def form():
        status, text = answer(flask.request.get_data())
        return flask.Response(text, status, mimetype="text/plain")

    return app


class Quiet(wsgiref.simple_server.WSGIRequestHandler):
    def log_message(self, *_):
        pass


app = flask_page() if sys.argv[1:] == ["flask"] else page
with wsgiref.simple_server.make_server("127.0.0.1", 0, app, handler_class=Quiet) as server:
    print(server.server_port, flush=True)
    server.serve_forever()
