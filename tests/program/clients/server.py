# takes one message a connection, writes its bytes to the file named, and answers 200
import socket, sys
port, count, out = int(sys.argv[1]), int(sys.argv[2]), sys.argv[3:]
s = socket.socket(); s.setsockopt(socket.SOL_SOCKET, socket.SO_REUSEADDR, 1); s.bind(("127.0.0.1", port)); s.listen()
for name in out:
    c, _ = s.accept(); c.settimeout(5)
    data = b""
    while b"\r\n\r\n" not in data: data += c.recv(65536)
    head, rest = data.split(b"\r\n\r\n", 1)
    n = 0
    for line in head.split(b"\r\n")[1:]:
        k, v = line.split(b":", 1)
        if k.lower() == b"content-length": n = int(v)
    while len(rest) < n:
        rest += c.recv(65536); data = head + b"\r\n\r\n" + rest
    open(name, "wb").write(data)
    c.sendall(b"HTTP/1.1 200 OK\r\ncontent-length: 2\r\nconnection: close\r\n\r\n{}"); c.close()
