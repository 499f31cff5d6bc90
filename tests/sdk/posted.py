"""A place to which programs of the pages post what they have, and one where nobody listens."""
import contextlib
import http.server
import socket
import threading


@contextlib.contextmanager
def places():
    """Their URLs, that of nobody first, and what was posted: each its path and its body."""
    posted = []

    class Handler(http.server.BaseHTTPRequestHandler):
        def do_POST(self):
            posted.append((self.path, self.rfile.read(int(self.headers["Content-Length"]))))
            self.send_response(200)
            self.send_header("Content-Length", "0")
            self.end_headers()

        def log_message(self, *_):
            pass

    # (what is bound and does not listen refuses, and nobody else gets its port meanwhile)
    with socket.socket() as nobody, http.server.ThreadingHTTPServer(("127.0.0.1", 0), Handler) as server:
        nobody.bind(("127.0.0.1", 0))
        threading.Thread(target=server.serve_forever, daemon=True).start()
        try:
            yield (*(f"http://127.0.0.1:{port}" for port in (nobody.getsockname()[1], server.server_port)), posted)
        finally:
            server.shutdown()


def first_of(run):
    """What is wrong with a program that posts to the first of several that takes it; `run` runs it with words, and tells its status."""
    with places() as (nobody, somebody, posted):
        if run(nobody, somebody):
            return "it fails where one of two takes its export"
        if [path for path, _ in posted] != ["/v1/metrics"] or not all(word in posted[0][1] for word in (b"bank", b"transfers")):
            return f"it posts {posted}"
        if not run(nobody) or len(posted) != 1:
            return "it succeeds where nobody takes its export"
    return None
