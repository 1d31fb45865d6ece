#!/usr/bin/env bash
# Makes the certificates and keys of this folder anew: localhost's with several kinds of keys, all signed by one
# authority, whose own key is thrown away. They are for tests alone, and good from 2020 until 2100.
set -eu
cd "$(dirname "$0")"
temporary=$(mktemp -d)
trap 'rm -rf "$temporary"' EXIT

touch "$temporary/index"
printf '%s\n' basicConstraints=critical,CA:TRUE keyUsage=critical,keyCertSign >"$temporary/authority.extensions"
printf '%s\n' basicConstraints=critical,CA:FALSE subjectAltName=DNS:localhost,IP:127.0.0.1,IP:::1 \
    >"$temporary/extensions"
cat >"$temporary/settings" <<END
[ca]
default_ca = here
[here]
database = $temporary/index
new_certs_dir = $temporary
default_md = sha256
policy = names
serial = $temporary/serial
rand_serial = yes
unique_subject = no
[names]
commonName = supplied
END

# Signs the request of a name: its file, and what else openssl is told.
sign() {
    openssl ca -batch -notext -config "$temporary/settings" -keyfile "$temporary/authority.key" \
        -startdate 20200101000000Z -enddate 21000101000000Z -in "$temporary/request" -out "$@"
}

openssl genpkey -algorithm EC -pkeyopt ec_paramgen_curve:P-256 -out "$temporary/authority.key"
openssl req -new -key "$temporary/authority.key" -subj "/CN=Authority for tests" -out "$temporary/request"
sign authority.pem -selfsign -extfile "$temporary/authority.extensions"

# A certificate with a fresh key: its name, and how the key is made.
make() {
    name=$1
    shift
    openssl genpkey "$@" -out "$name.key"
    openssl req -new -key "$name.key" -subj /CN=localhost -out "$temporary/request"
    sign "$name.pem" -cert authority.pem -extfile "$temporary/extensions"
}

make rsa -algorithm RSA -pkeyopt rsa_keygen_bits:2048
make p256 -algorithm EC -pkeyopt ec_paramgen_curve:P-256
make p384 -algorithm EC -pkeyopt ec_paramgen_curve:P-384
make ed25519 -algorithm ED25519
openssl rsa -in rsa.key -traditional -out rsa.pkcs1.key
openssl ec -in p256.key -out p256.sec1.key
