# Stands between a client and the server: ends the client's TLS with a certificate of its own and opens TLS to the server. Arguments: the server's
# port, the certificate, its key. Prints the port that it listens on.
import select
import socket
import ssl
import struct
import sys
import threading

SSL_REQUEST = struct.pack("!ii", 8, 80877103)


def pump(client, server):
    """Hands on what either side sends, until one ends."""
    other = {client: server, server: client}
    while True:
        for source in [end for end in other if end.pending()] or select.select(list(other), [], [])[0]:
            data = source.recv(65536)
            if not data:
                return
            other[source].sendall(data)


def serve(client):
    if client.recv(8) != SSL_REQUEST:
        client.close()
        return
    client.sendall(b"S")
    here = ssl.SSLContext(ssl.PROTOCOL_TLS_SERVER)
    here.load_cert_chain(sys.argv[2], sys.argv[3])
    there = ssl.SSLContext(ssl.PROTOCOL_TLS_CLIENT)
    there.check_hostname = False
    there.verify_mode = ssl.CERT_NONE
    client = here.wrap_socket(client, server_side=True)
    server = socket.create_connection(("127.0.0.1", int(sys.argv[1])))
    server.sendall(SSL_REQUEST)
    server.recv(1)
    server = there.wrap_socket(server)
    with client, server:
        pump(client, server)


listener = socket.create_server(("127.0.0.1", 0))
print(listener.getsockname()[1], flush=True)
while True:
    threading.Thread(target=serve, args=(listener.accept()[0],), daemon=True).start()
