"""What the benchmarks of the running programs share: free ports, settings files, and programs that are started and ended."""
import os
import signal
import socket
import subprocess
import threading
import time

ROOT = os.path.dirname(os.path.dirname(os.path.realpath(__file__)))
TICK = os.sysconf("SC_CLK_TCK")
LATE = 20


def free_ports(count):
    """Gives ports of 127.0.0.1 on which nothing listens at this moment."""
    held = [socket.create_server(("127.0.0.1", 0)) for _ in range(count)]
    ports = [it.getsockname()[1] for it in held]
    for it in held:
        it.close()
    return ports


def put(path, text):
    """Writes a file so that it is never seen in part."""
    with open(f"{path}.next", "w", encoding="utf-8") as it:
        it.write(text)
    os.replace(f"{path}.next", path)


def proxy_settings(port, pods, version=1, draining=(), period=1, patience=150):
    """The proxy's settings for one tenant, 7, with pods of these ports, numbered from 1."""
    text = f'listen = "127.0.0.1:{port}"\nperiod = {period}\npatience = {patience}\n\n[[tenant]]\nid = 7\nversion = {version}\n'
    for number, place in enumerate(pods, 1):
        state = "draining" if number in draining else "running"
        text += f'\n[[tenant.pod]]\nnumber = {number}\nplace = "127.0.0.1:{place}"\nstate = "{state}"\n'
    return text


def pod_settings(ports, user, password):
    """The settings of pods of tenant 7 on these ports, with one user."""
    places = ", ".join(f'"127.0.0.1:{it}"' for it in ports)
    return (
        f'tenant = 7\nsecret = "a secret of the benchmarks"\ntoken_until = 4102444800\nlisten = [{places}]\n'
        f'\n[[user]]\nname = "{user}"\npassword = "{password}"\n'
    )


class Program:
    """A program that runs in the background, with the lines that it has said on standard error so far."""

    def __init__(self, *words, listens=1):
        self.lines, self.heard = [], threading.Condition()
        self.ran = subprocess.Popen(
            words, stdin=subprocess.DEVNULL, stdout=subprocess.PIPE, stderr=subprocess.PIPE, text=True, errors="replace"
        )
        self.pid = self.ran.pid
        threading.Thread(target=self.listen, daemon=True).start()
        for _ in range(listens):
            if not self.ran.stdout.readline().startswith("listening on "):
                self.ran.wait()
                raise RuntimeError(f"{words[0]} didn't start: {self.ran.stderr.read()}{' '.join(self.said())}")

    def listen(self):
        for line in self.ran.stderr:
            with self.heard:
                self.lines.append((time.monotonic(), line.rstrip()))
                self.heard.notify_all()

    def said(self):
        with self.heard:
            return [line for _, line in self.lines]

    def wait_for(self, is_there, seconds=LATE):
        """Waits until the lines so far are as wanted; whether they are."""
        with self.heard:
            return self.heard.wait_for(lambda: is_there([line for _, line in self.lines]), seconds)

    def is_running(self):
        return self.ran.poll() is None

    def processor_seconds(self):
        """The processor time of the program so far, in user and in system mode."""
        with open(f"/proc/{self.pid}/stat", encoding="utf-8") as it:
            fields = it.read().rpartition(")")[2].split()
        return int(fields[11]) / TICK, int(fields[12]) / TICK

    def memory_kib(self):
        """The most memory that it has held, in KiB."""
        with open(f"/proc/{self.pid}/status", encoding="utf-8") as it:
            return next(int(line.split()[1]) for line in it if line.startswith("VmHWM:"))

    def end(self):
        if self.is_running():
            self.ran.send_signal(signal.SIGTERM)
        self.ran.wait()


def table(head, rows):
    """A table as the documents have them."""
    lines = [head, ["---"] * len(head), *rows]
    return "\n".join("| " + " | ".join(str(it) for it in line) + " |" for line in lines)
