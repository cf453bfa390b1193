"""What prometheus-redis-exporter tells of a server with a queue: redis_exporter.py PORT. Figures that change from one
run to the next, and those of radix trees, are left out."""
import socket
import subprocess
import sys
import time
import urllib.error
import urllib.request

SAID = ["XADD jobs 1-0 mail anna", "XADD jobs 2-0 mail bert", "XGROUP CREATE jobs workers 0",
        "XREADGROUP GROUP workers one COUNT 1 STREAMS jobs >", "XADD other 1-0 f v"]
TOLD = ("redis_up ", "redis_stream_group", "redis_stream_length", "redis_stream_last", 'redis_db_keys{db="db0"}', "redis_exporter_last_scrape_error",
        "redis_connected_slaves", "redis_memory_max_bytes")


def free_port():
    with socket.socket() as one:
        one.bind(("127.0.0.1", 0))
        return one.getsockname()[1]


def metrics(port):
    for _ in range(100):
        try:
            with urllib.request.urlopen(f"http://127.0.0.1:{port}/metrics", timeout=10) as answer:
                return answer.read().decode().splitlines()
        except urllib.error.URLError:
            time.sleep(0.1)
    raise SystemExit("the exporter does not answer")


def main():
    port, own = sys.argv[1], free_port()
    with socket.create_connection(("127.0.0.1", int(port))) as stream:
        for text in SAID:
            words = text.split(" ")
            bulks = "".join(f"${len(word)}\r\n{word}\r\n" for word in words)
            stream.sendall(f"*{len(words)}\r\n{bulks}".encode())
            stream.recv(1000)
    words = ["prometheus-redis-exporter", "--redis.addr", f"redis://127.0.0.1:{port}", "--check-streams", "jobs,other",
             "--web.listen-address", f"127.0.0.1:{own}"]
    with subprocess.Popen(words, stdout=subprocess.DEVNULL, stderr=subprocess.DEVNULL) as exporter:
        try:
            for line in metrics(own):
                if line.startswith(TOLD) and "idle_seconds" not in line:
                    print(": ".join(line.rsplit(" ", 1)))
        finally:
            exporter.kill()


main()
