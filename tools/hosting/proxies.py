"""wrk at `host` directly, and through proxies that keep their connections to it."""
import contextlib
import pathlib
import re
import shutil
import subprocess
import tempfile
import time

from deployment.stage import free_port, is_open
from hosting.clients import PATH, USER, connect
from hosting.crowds import BUSY, SECONDS, SLOWEST, put_list
from hosting.server import Host

IDLE = 1_000
NGINX = """\
daemon off; worker_processes 2; pid {folder}/pid; error_log {folder}/log;
events {{ worker_connections 4096; }}
http {{
  access_log off; client_body_temp_path {folder}/b; proxy_temp_path {folder}/p;
  fastcgi_temp_path {folder}/f; uwsgi_temp_path {folder}/u; scgi_temp_path {folder}/s;
  keepalive_requests 1000000;
  upstream xcapd {{ server 127.0.0.1:{host}; keepalive 64; keepalive_requests 1000000; }}
  server {{
    listen 127.0.0.1:{port};
    location / {{
      proxy_pass http://xcapd; proxy_http_version 1.1; proxy_set_header Connection "";
    }}
  }}
}}
"""
HAPROXY = """\
global
    maxconn 4096
defaults
    mode http
    http-reuse always
    timeout connect 5s
    timeout client 60s
    timeout server 10s
frontend f
    bind 127.0.0.1:{port}
    default_backend b
backend b
    server xcapd 127.0.0.1:{host}
"""
APACHE = """\
ServerRoot {folder}
ServerName localhost
PidFile {folder}/pid
ErrorLog {folder}/log
LoadModule mpm_event_module /usr/lib/apache2/modules/mod_mpm_event.so
LoadModule authz_core_module /usr/lib/apache2/modules/mod_authz_core.so
LoadModule proxy_module /usr/lib/apache2/modules/mod_proxy.so
LoadModule proxy_http_module /usr/lib/apache2/modules/mod_proxy_http.so
Listen 127.0.0.1:{port}
User www-data
Group www-data
MaxKeepAliveRequests 0
ProxyPass "/" "http://127.0.0.1:{host}/" nocanon enablereuse=on max=64
"""
# How each proxy is started over its configuration.
PROXIES = {
    "nginx": (NGINX, "nginx -p {folder} -c {folder}/conf"),
    "haproxy": (HAPROXY, "haproxy -f {folder}/conf"),
    "apache2": (APACHE, "apache2 -d {folder} -f {folder}/conf -DFOREGROUND"),
}


@contextlib.contextmanager
def proxy(name, host):
    """The port of a proxy in front of this one, until the block ends."""
    text, words = PROXIES[name]
    port = free_port()
    with tempfile.TemporaryDirectory() as folder:
        pathlib.Path(folder).chmod(0o755)
        pathlib.Path(folder, "conf").write_text(text.format(folder=folder, host=host, port=port))
        command = words.format(folder=folder).split()
        process = subprocess.Popen(command, stdout=subprocess.DEVNULL, stderr=subprocess.DEVNULL)
        until = time.monotonic() + 10
        while not is_open(port) and time.monotonic() < until:
            time.sleep(0.05)
        try:
            yield port
        finally:
            process.terminate()
            process.wait()


def wrk(port):
    """What wrk says of a GET of the list: requests a second, the slowest in ms, complaints."""
    words = ["wrk", "--latency", "-t2", f"-c{BUSY}", f"-d{SECONDS}s", "-H", f"X-XCAP-User: {USER}"]
    address = f"http://127.0.0.1:{port}{PATH}"
    told = subprocess.run([*words, address], capture_output=True, text=True)
    rate = float(re.search(r"Requests/sec: *([\d.]+)", told.stdout)[1])
    found = re.search(r"Latency +[\d.]+\w+ +[\d.]+\w+ +([\d.]+)(us|ms|s)", told.stdout)
    slowest = float(found[1]) * {"us": 0.001, "ms": 1, "s": 1000}[found[2]]
    failed = re.findall(r"(?:Socket errors|Non-2xx).*", told.stdout)
    return rate, slowest, failed


def note_wrk(report, way, port):
    rate, slowest, failed = wrk(port)
    told = "".join(f"; {it}" for it in failed)
    seen = f"{rate:,.0f} a second, the slowest {slowest:.1f} ms{told}"
    answered = not any(it.startswith("Non-2xx") for it in failed)
    report.holds(f"wrk {way}: each of its replies is a 200", answered, seen)
    return slowest


def by_wrk(report, program):
    """50 connections of wrk, alone and through each proxy that is there, beside 1,000 idle ones."""
    if not shutil.which("wrk"):
        return
    report.part(f"wrk, {BUSY} connections, beside {IDLE:,} idle ones, for {SECONDS} s each")
    with Host(program, "connections=1200") as host:
        put_list(host.port)
        note_wrk(report, "with no others there", host.port)
        lines = [connect(host.port) for _ in range(IDLE)]
        slowest = note_wrk(report, "beside them", host.port)
        report.holds(f"none took {SLOWEST} ms", slowest < SLOWEST, f"{slowest:.1f}")
        for name in filter(shutil.which, PROXIES):
            with proxy(name, host.port) as port:
                note_wrk(report, f"through {name}", port)
        for line in lines:
            line.close()
