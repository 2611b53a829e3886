"""Dovecot as a POP3 server of one Maildir, run by root: its settings, and the owner of its files."""

import os
import pwd
import shutil

OWNER = "nobody"
SETTINGS = """
base_dir = {folder}/run
state_dir = {folder}/state
log_path = {folder}/log
protocols = pop3
listen = 127.0.0.1
mail_location = maildir:{maildir}
first_valid_uid = 1
first_valid_gid = 1
pop3_uidl_format = %f
default_vsz_limit = 2G
passdb {{
  driver = static
  args = password=sesame
}}
userdb {{
  driver = static
  args = uid={uid} gid={gid} home={folder}
}}
service pop3-login {{
  inet_listener pop3 {{
    port = {plain_port}
  }}
  inet_listener pop3s {{
    port = {tls_port}
    ssl = yes
  }}
}}
"""
PLAIN = """
ssl = no
disable_plaintext_auth = no
"""
TLS = """
ssl = required
ssl_cert = <{certificate}
ssl_key = <{key}
"""


def missing():
    """What is missing to run it: it and its POP3 part have to be installed, and this has to be root."""
    there = (("dovecot", shutil.which("dovecot")), ("dovecot's POP3", os.path.exists("/usr/lib/dovecot/pop3")),
             ("root, whom dovecot wants,", os.geteuid() == 0))
    return [name for name, is_there in there if not is_there]


def give_to_owner(maildir):
    """Makes all files of a Maildir the server's."""
    owner = pwd.getpwnam(OWNER)
    for parent, _, names in os.walk(maildir):
        for path in (parent, *(os.path.join(parent, name) for name in names)):
            os.chown(path, owner.pw_uid, owner.pw_gid)


def words(folder, maildir, port, pair=None):
    """Writes its settings into the folder and answers the words that start it: over TLS alone with a certificate and its key,
    without TLS otherwise."""
    owner = pwd.getpwnam(OWNER)
    text = SETTINGS.format(folder=folder, maildir=maildir, uid=owner.pw_uid, gid=owner.pw_gid,
                           plain_port=0 if pair else port, tls_port=port if pair else 0)
    text += TLS.format(certificate=pair[0], key=pair[1]) if pair else PLAIN
    settings = os.path.join(folder, "dovecot.conf")
    with open(settings, "w") as file:
        file.write(text)
    return ["dovecot", "-F", "-c", settings]
