"""The configurations of deploy/ as they are, except for ports, folders, users and processes."""
import os
import pathlib
import re
import shutil

DEPLOY = pathlib.Path(__file__).resolve().parent.parent.parent / "deploy"
NGINX = """\
daemon off; worker_processes 2; pid {folder}/nginx.pid; error_log {folder}/nginx.log;
events {{ worker_connections 1024; }}
http {{
  log_format told '$status $upstream_status';
  access_log {folder}/requests.log told;
  client_body_temp_path {folder}/body; proxy_temp_path {folder}/proxy;
  fastcgi_temp_path {folder}/f; uwsgi_temp_path {folder}/u; scgi_temp_path {folder}/s;
  include {folder}/site.conf;
}}
"""
# Debian's modules; a2enmod names those of the site, and the others are on.
MODULES = """
    mpm_event authn_core authn_file authz_core authz_user socache_shmcb
    ssl proxy proxy_http headers auth_digest buffer reqtimeout
""".split()
APACHE = """\
ServerRoot {folder}
ServerName localhost
PidFile {folder}/apache.pid
ErrorLog {folder}/apache.log
User www-data
Group www-data
{modules}
Listen 127.0.0.1:{port} https
{site}
"""


class Text:
    """A text in which some places are to be changed, each of which has to be there once."""

    def __init__(self, path, folder):
        self.name = path.name
        self.text = path.read_text().replace("/etc/xcapd/", f"{folder}/")

    def change(self, form, to, count=1):
        found = re.findall(form, self.text, re.M)
        if len(found) != count:
            raise SystemExit(f"{self.name} should have {form!r} {count} times")
        self.text = re.sub(form, lambda _: to, self.text, flags=re.M)


def nginx(stage, site, ports, rate=None, more=""):
    servers = "".join(f"    server 127.0.0.1:{port} max_fails=0;\n" for port in ports)
    text = Text(DEPLOY / site, stage.folder)
    text.change(r"listen 443 ssl;", f"listen 127.0.0.1:{stage.port} ssl;")
    text.change(r"^ *server 127\.0\.0\.1:8081 max_fails=0;\n", servers)
    if rate:
        text.change(r"rate=20r/s", f"rate={rate}r/s")
    if more:
        text.change(r"^    location /xcap/ {$", f"{more}\n    location /xcap/ {{")
    beside = Text(DEPLOY / "nginx" / "xcapd-for-a-list-server.conf", stage.folder)
    stage.reader_port = stage.free_port()
    beside.change(r"listen 127\.0\.0\.1:8443 ssl;", f"listen 127.0.0.1:{stage.reader_port} ssl;")
    beside.change(r"^ *server 127\.0\.0\.1:8081 max_fails=0;\n", servers)
    (stage.folder / "site.conf").write_text(text.text + beside.text)
    (stage.folder / "nginx.conf").write_text(NGINX.format(folder=stage.folder))
    shutil.copytree(DEPLOY / "nginx", stage.folder / "snippets", dirs_exist_ok=True)
    return ["nginx", "-c", stage.folder / "nginx.conf"]


def haproxy(stage, site, ports):
    text = Text(DEPLOY / site, stage.folder)
    text.change(r"bind :443", f"bind 127.0.0.1:{stage.port}")
    known = "".join(f"    user {it} password {stage.kept}\n" for it in stage.users)
    text.change(r"^    user joe password .*\n", known)
    one = "    server xcapd-{port} 127.0.0.1:{port} maxconn 1\n"
    servers = "".join(one.format(port=port) for port in ports)
    text.change(r"^    server xcapd-8081 127\.0\.0\.1:8081 maxconn 1\n", servers)
    if os.geteuid():
        text.change(r"^    (?:user|group) haproxy\n", "", count=2)
    (stage.folder / "haproxy.cfg").write_text(text.text)
    return ["haproxy", "-db", "-f", stage.folder / "haproxy.cfg"]


def apache(stage, site, ports):
    text = Text(DEPLOY / site, stage.folder)
    text.change(r"<VirtualHost \*:443>", f"<VirtualHost *:{stage.port}>")
    text.change(r"127\.0\.0\.1:8081", f"127.0.0.1:{ports[0]}")
    loaded = (f"LoadModule {it}_module /usr/lib/apache2/modules/mod_{it}.so" for it in MODULES)
    names = {"folder": stage.folder, "port": stage.port, "site": text.text}
    made = APACHE.format(**names, modules="\n".join(loaded))
    (stage.folder / "apache.conf").write_text(made)
    return ["apache2", "-D", "FOREGROUND", "-f", stage.folder / "apache.conf"]


def prepare(stage, site, ports, **changed):
    """Writes what the proxy of a site reads, and returns the words that start it."""
    return {"nginx": nginx, "haproxy": haproxy, "apache": apache}[site.split("/")[0]](
        stage, site, ports, **changed
    )
