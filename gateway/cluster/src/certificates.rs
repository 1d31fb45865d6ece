//! `hobbychair cluster certificates`: an authority, and certificates that it has signed, made by the program openssl.

use std::fs::{self, OpenOptions, Permissions};
use std::io::{self, Write};
use std::net::IpAddr;
use std::os::unix::fs::{DirBuilderExt, OpenOptionsExt, PermissionsExt};
use std::path::{Path, PathBuf};
use std::process::{Command, Stdio};

use anyhow::{anyhow, bail, Context, Result};
use clap::Args;

use crate::identity::{test_cluster, Role, DOMAIN};
use crate::records::random_name;

/// What the authority's files are called.
const AUTHORITY: &str = "authority";

/// So many days an authority is good.
const DAYS_OF_AUTHORITY: u32 = 3650;

/// So many days another certificate is good.
const DAYS: u32 = 365;

/// What is to be made.
#[derive(Args, Clone, Debug)]
pub struct CertificateOptions {
    /// The name of the cluster
    #[arg(long, value_name = "NAME")]
    pub cluster: String,
    /// Where the authority is, and where all files go
    #[arg(long, value_name = "FOLDER")]
    pub folder: PathBuf,
    /// Make a certificate for these roles [default: make the authority]
    #[arg(long, value_name = "ROLE,..", value_delimiter = ',', value_enum)]
    pub role: Vec<Role>,
    /// What the files are called, NAME.pem and NAME.key [default: the first role]
    #[arg(long, value_name = "NAME", requires = "role")]
    pub name: Option<String>,
    /// A host or an address that stands in the certificate too, for programs that look for it, as etcd and etcdctl
    #[arg(long, value_name = "HOST|ADDRESS", requires = "role")]
    pub address: Vec<String>,
    /// How many days it is good [default: 3650 for the authority, 365 for others]
    #[arg(long, value_name = "DAYS", value_parser = clap::value_parser!(u32).range(1..=36_500))]
    pub days: Option<u32>,
}

/// Makes the authority, or a certificate that it has signed. A file that is there is never written. Says what was made.
pub fn make(wanted: &CertificateOptions) -> Result<Vec<String>> {
    test_cluster(&wanted.cluster)?;
    if wanted.role.is_empty() {
        make_authority(wanted)
    } else {
        make_certificate(wanted)
    }
}

fn make_authority(wanted: &CertificateOptions) -> Result<Vec<String>> {
    let folder = &wanted.folder;
    fs::create_dir_all(folder).with_context(|| format!("{} can't be made", folder.display()))?;
    let files = Files::of(folder, AUTHORITY)?;
    let days = wanted.days.unwrap_or(DAYS_OF_AUTHORITY);
    let room = OpensslFolder::begin(folder)?;
    let extensions = "basicConstraints = critical,CA:TRUE,pathlen:0\nkeyUsage = critical,keyCertSign,cRLSign\n";
    room.configure("authorities of hobbychair", &wanted.cluster, extensions)?;
    room.openssl(&["req", "-x509", "-extensions", "extensions", "-days", &days.to_string(), "-out", "certificate"])?;
    files.keep(&room)?;
    Ok(vec![
        format!("{} is good for {days} days: each process of the cluster is given it", files.certificate.display()),
        format!("{} signs certificates: keep it where no process reads it", files.key.display()),
    ])
}

fn make_certificate(wanted: &CertificateOptions) -> Result<Vec<String>> {
    let folder = &wanted.folder;
    let [certificate, key] = ["pem", "key"].map(|end| folder.join(format!("{AUTHORITY}.{end}")));
    for file in [&certificate, &key] {
        if !file.exists() {
            bail!("{} isn't there: without --role the authority is made", file.display());
        }
    }
    let name = wanted.name.clone().unwrap_or_else(|| wanted.role[0].to_string());
    test_name(&name)?;
    let files = Files::of(folder, &name)?;
    let days = wanted.days.unwrap_or(DAYS);
    let room = OpensslFolder::begin(folder)?;
    room.configure("hobbychair", &name, &extensions(wanted)?)?;
    room.openssl(&["req", "-out", "request"])?;
    let (serial, days_said) = (format!("0x1{}", random_name()), days.to_string());
    let [certificate, key] = [&certificate, &key].map(|file| file.canonicalize());
    let (certificate, key) = (certificate?, key?);
    let signs = [
        "x509",
        "-req",
        "-in",
        "request",
        "-out",
        "certificate",
        "-sha256",
        "-set_serial",
        &serial,
        "-days",
        &days_said,
    ];
    let how = ["-extfile", "config", "-extensions", "extensions", "-CA", text(&certificate)?, "-CAkey", text(&key)?];
    room.openssl(&[&signs[..], &how[..]].concat())?;
    files.keep(&room)?;
    let roles: Vec<String> = wanted.role.iter().map(ToString::to_string).collect();
    let (certificate, key) = (files.certificate.display(), files.key.display());
    Ok(vec![format!("{certificate} is good for {days} days, as {}; {key} is its key", roles.join(" and "))])
}

fn text(path: &Path) -> Result<&str> {
    path.to_str().ok_or_else(|| anyhow!("{} is no text", path.display()))
}

/// What stands in a certificate.
fn extensions(wanted: &CertificateOptions) -> Result<String> {
    let is_server = wanted.role.iter().any(|role| matches!(role, Role::Node | Role::Etcd));
    let usage = if is_server { "serverAuth,clientAuth" } else { "clientAuth" };
    let mut names: Vec<String> = wanted.role.iter().map(|role| format!("DNS:{}", role.name(&wanted.cluster))).collect();
    names.extend(wanted.address.iter().map(|address| name_of(address)).collect::<Result<Vec<_>>>()?);
    Ok(format!(
        "basicConstraints = critical,CA:FALSE\nkeyUsage = critical,digitalSignature\nextendedKeyUsage = {usage}\n\
         authorityKeyIdentifier = keyid\nsubjectAltName = {}\n",
        names.join(",")
    ))
}

/// How an address or a host stands in a certificate.
fn name_of(address: &str) -> Result<String> {
    if let Ok(address) = address.parse::<IpAddr>() {
        return Ok(format!("IP:{address}"));
    }
    let is_good = |label: &str| {
        let is_of_letters = label.bytes().all(|byte| byte.is_ascii_alphanumeric() || byte == b'-');
        !label.is_empty() && label.len() <= 63 && is_of_letters && !label.starts_with('-') && !label.ends_with('-')
    };
    if address.len() > 253 || !address.split('.').all(is_good) {
        bail!("{address:?} is no host and no address");
    }
    if address.to_ascii_lowercase().ends_with(DOMAIN) {
        bail!("{address} is in the domain of roles: these are said by --role");
    }
    Ok(format!("DNS:{address}"))
}

fn test_name(name: &str) -> Result<()> {
    let is_good = |letter: char| letter.is_ascii_alphanumeric() || "-_.".contains(letter);
    if name.is_empty() || name.len() > 60 || name.starts_with('.') || !name.chars().all(is_good) {
        bail!("{name:?} is no name of files: that has 1 to 60 letters, digits, hyphens, underscores and dots");
    }
    Ok(())
}

/// A certificate and its key.
struct Files {
    certificate: PathBuf,
    key: PathBuf,
}

impl Files {
    /// None of them may be there.
    fn of(folder: &Path, name: &str) -> Result<Files> {
        let [certificate, key] = ["pem", "key"].map(|end| folder.join(format!("{name}.{end}")));
        for file in [&certificate, &key] {
            if file.symlink_metadata().is_ok() {
                bail!("{} is there already, and is left as it is", file.display());
            }
        }
        Ok(Files { certificate, key })
    }

    /// Takes both out of the room. The key is for its owner alone.
    fn keep(&self, room: &OpensslFolder) -> Result<()> {
        write_new(&self.key, &fs::read(room.0.join("key"))?, 0o600)?;
        write_new(&self.certificate, &fs::read(room.0.join("certificate"))?, 0o644).map_err(|error| {
            // Nobody has the certificate of this key.
            let _ = fs::remove_file(&self.key);
            error
        })
    }
}

fn write_new(path: &Path, bytes: &[u8], mode: u32) -> Result<()> {
    let write = || -> io::Result<()> {
        let mut file = OpenOptions::new().write(true).create_new(true).mode(mode).open(path)?;
        // Whatever a process's mask says.
        file.set_permissions(Permissions::from_mode(mode))?;
        file.write_all(bytes)?;
        file.sync_all()
    };
    write().with_context(|| format!("{} can't be written", path.display()))
}

/// A folder for what openssl reads and writes, which is gone behind that.
struct OpensslFolder(PathBuf);

impl Drop for OpensslFolder {
    fn drop(&mut self) {
        let _ = fs::remove_dir_all(&self.0);
    }
}

impl OpensslFolder {
    fn begin(folder: &Path) -> Result<OpensslFolder> {
        let path = folder.join(format!(".making-{}", random_name()));
        let made = fs::DirBuilder::new().mode(0o700).create(&path);
        made.with_context(|| format!("{} can't be made", path.display()))?;
        Ok(OpensslFolder(path))
    }

    /// What openssl is told of the subject of a certificate with a new key, and of what stands in it.
    fn configure(&self, organization: &str, name: &str, extensions: &str) -> Result<()> {
        let config = format!(
            "[req]\nprompt = no\ndistinguished_name = subject\nencrypt_key = no\ndefault_md = sha256\n\
             [subject]\nO = {organization}\nCN = {name}\n[extensions]\nsubjectKeyIdentifier = hash\n{extensions}"
        );
        Ok(fs::write(self.0.join("config"), config)?)
    }

    /// Runs openssl there. A request is made with a new key on P-256.
    fn openssl(&self, words: &[&str]) -> Result<()> {
        let mut command = Command::new("openssl");
        command.args(words).current_dir(&self.0).env_remove("OPENSSL_CONF").stdin(Stdio::null());
        if words.first() == Some(&"req") {
            command.args(["-new", "-config", "config", "-newkey", "ec", "-pkeyopt", "ec_paramgen_curve:P-256"]);
            command.args(["-keyout", "key"]);
        }
        let done = command.output().map_err(|error| match error.kind() {
            io::ErrorKind::NotFound => {
                anyhow!("there is no program openssl on the path: Debian's package openssl has it")
            }
            _ => anyhow!("openssl can't be run: {error}"),
        })?;
        if !done.status.success() {
            let said = String::from_utf8_lossy(&done.stderr);
            bail!("openssl makes no certificate ({}): {}", done.status, said.trim());
        }
        Ok(())
    }
}

#[cfg(test)]
mod tests {
    use super::*;

    #[test]
    fn addresses_are_no_roles() {
        assert_eq!(name_of("10.0.0.1").unwrap(), "IP:10.0.0.1");
        assert_eq!(name_of("::1").unwrap(), "IP:::1");
        assert_eq!(name_of("one.example.com").unwrap(), "DNS:one.example.com");
        for bad in
            ["node.c.hobbychair.internal", "x.HobbyChair.internal", "*.example.com", "a,DNS:b", "a b", "", "-a", "a\nb"]
        {
            assert!(name_of(bad).is_err(), "{bad}");
        }
    }

    #[test]
    fn names_of_files_are_in_their_folder() {
        assert!(test_name("node-1.a_B").is_ok());
        for bad in ["", "..", ".a", "a/b", "a b", &"x".repeat(61)] {
            assert!(test_name(bad).is_err(), "{bad}");
        }
    }
}
