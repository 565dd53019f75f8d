"""What stands between a caller and a server in some examples: it listens at a port, and a thread for each caller hands on what
comes to another port, by the rule of the relay's kind."""
import contextlib
import socket
import threading


class Relay:
    def __init__(self, port, to):
        self.port, self.to = port, to
        self.listener = socket.create_server(("127.0.0.1", port))
        threading.Thread(target=self.serve, daemon=True).start()

    def serve(self):
        while True:
            caller, _ = self.listener.accept()
            threading.Thread(target=self.relay, args=(caller,), daemon=True).start()

    def relay(self, caller):
        with contextlib.suppress(OSError), caller, socket.create_connection(("127.0.0.1", self.to)) as server:
            self.hand_on(caller, server)
