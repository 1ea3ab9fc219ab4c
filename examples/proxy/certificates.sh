#!/usr/bin/env bash
# Makes certificates for a trial of examples/proxy/haproxy.cfg, valid for 30 days: an authority of its own, a server's for
# `localhost`, and a client's. Writes clients.pem and server.pem, which haproxy reads, and client.pem, which the client shows.
#   examples/proxy/certificates.sh FOLDER
set -eu
[ $# -eq 1 ] || { echo "usage: certificates.sh FOLDER" >&2; exit 2; }
mkdir -p "$1"
cd "$1"
umask 077

# signed NAME SUBJECT EXTENSIONS: a key and a certificate in NAME.pem, signed by the authority
signed() {
    openssl req -newkey rsa:2048 -nodes -subj "$2" -keyout "$1.key" -out "$1.csr" 2>/dev/null
    openssl x509 -req -in "$1.csr" -CA clients.pem -CAkey authority.key -CAcreateserial -days 30 -extfile <(echo "$3") -out "$1.crt" 2>/dev/null
    cat "$1.crt" "$1.key" >"$1.pem"
    rm "$1.csr" "$1.crt" "$1.key"
}

openssl req -x509 -newkey rsa:2048 -nodes -subj "/CN=Trial authority" -days 30 -keyout authority.key -out clients.pem 2>/dev/null
signed server "/CN=localhost" $'subjectAltName=DNS:localhost,IP:127.0.0.1\nextendedKeyUsage=serverAuth'
signed client "/CN=trial" "extendedKeyUsage=clientAuth"
