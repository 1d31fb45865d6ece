use std::path::Path;
use std::process::Command;

use tokio::io::{AsyncReadExt, AsyncWriteExt};
use tokio::net::TcpListener;

use super::*;
use crate::certificates::{make, CertificateOptions};
use crate::records::random_name;

/// A folder of this test alone, with an authority.
struct AuthorityFolder(PathBuf);

impl Drop for AuthorityFolder {
    fn drop(&mut self) {
        let _ = std::fs::remove_dir_all(&self.0);
    }
}

fn wanted(folder: &Path, cluster: &str, roles: &[Role], name: Option<&str>) -> CertificateOptions {
    let name = name.map(String::from);
    CertificateOptions {
        cluster: cluster.into(),
        folder: folder.into(),
        role: roles.to_vec(),
        name,
        address: vec![],
        days: None,
    }
}

impl AuthorityFolder {
    fn new() -> AuthorityFolder {
        let folder = AuthorityFolder(std::env::temp_dir().join(format!("hobbychair-{}", random_name())));
        make(&wanted(&folder.0, "one", &[], None)).unwrap();
        folder
    }

    fn files(&self, name: &str) -> IdentityFiles {
        let file = |name: &str| Some(self.0.join(name));
        IdentityFiles {
            certificate: file(&format!("{name}.pem")),
            key: file(&format!("{name}.key")),
            authority: file("authority.pem"),
        }
    }

    /// A certificate of that name, and what it makes.
    fn make(&self, cluster: &str, roles: &[Role], name: &str) -> Arc<Identity> {
        make(&wanted(&self.0, cluster, roles, Some(name))).unwrap();
        self.files(name).identity(cluster, roles).unwrap().unwrap()
    }
}

/// Runs openssl in a folder.
fn openssl(folder: &Path, words: &str) {
    let done = Command::new("openssl").args(words.split(' ')).current_dir(folder).output().unwrap();
    assert!(done.status.success(), "{words}: {}", String::from_utf8_lossy(&done.stderr));
}

/// Makes a certificate of that name in a folder, which another one of these has signed.
fn sign(folder: &Path, name: &str, issuer: &str, extensions: &str) {
    std::fs::write(folder.join("extensions"), extensions).unwrap();
    let key = "-newkey ec -pkeyopt ec_paramgen_curve:P-256 -nodes";
    openssl(folder, &format!("req -new {key} -keyout {name}.key -out {name}.request -subj /CN={name}"));
    let signed = format!("-CA {issuer}.pem -CAkey {issuer}.key -set_serial 7 -days 2 -extfile extensions");
    openssl(folder, &format!("x509 -req -in {name}.request -out {name}.pem {signed}"));
}

/// The files of a node's certificate with which so many others come: each has signed the one before it, and the folder's
/// authority the last.
fn chained(folder: &AuthorityFolder, others: usize, names: &[String]) -> IdentityFiles {
    chained_by(folder, others, names, "")
}

/// The same, where those that come with it have more extensions.
fn chained_by(folder: &AuthorityFolder, others: usize, names: &[String], more: &str) -> IdentityFiles {
    let mut issuers = vec!["authority".to_string()];
    for number in 0..others {
        let name = format!("{others}-{number}");
        let extensions = format!("basicConstraints = critical,CA:TRUE\nkeyUsage = critical,keyCertSign\n{more}");
        sign(&folder.0, &name, &issuers[0], &extensions);
        issuers.insert(0, name);
    }
    let own = format!("chained-{others}-{}", names.len());
    let names: Vec<String> = names.iter().map(|name| format!("DNS:{name}")).collect();
    sign(&folder.0, &own, &issuers[0], &format!("subjectAltName = {}", names.join(",")));
    let shown = [own.clone()].into_iter().chain(issuers.into_iter().take(others));
    let shown = shown.map(|name| std::fs::read_to_string(folder.0.join(format!("{name}.pem"))).unwrap());
    std::fs::write(folder.0.join(format!("{own}.pem")), shown.collect::<String>()).unwrap();
    folder.files(&own)
}

/// What these files make, though others would refuse it.
fn untested(files: &IdentityFiles) -> Identity {
    let read = |path: &Option<PathBuf>| Pem::read(path.as_ref().unwrap()).unwrap();
    let pems = Pems { certificate: read(&files.certificate), key: read(&files.key), authority: read(&files.authority) };
    Identity::new("one", pems).unwrap()
}

/// What the client and the server say of a connection from the one to the other, each of which sends the other a byte.
async fn meet(
    client: &Identity,
    server: &Identity,
    role: Role,
    wanted: Option<Fingerprint>,
) -> (Result<(), String>, Result<PeerCertificate, String>) {
    let listener = TcpListener::bind("127.0.0.1:0").await.unwrap();
    let address = listener.local_addr().unwrap();
    let connects = async {
        let stream = TcpStream::connect(address).await?;
        let mut stream = client.connect(stream, role, wanted).await?;
        stream.write_all(&[7]).await?;
        stream.flush().await?;
        stream.read_u8().await.map(|_| ())
    };
    let accepts = async {
        let (mut stream, peer) = server.accept(listener.accept().await?.0).await?;
        stream.read_u8().await?;
        stream.write_all(&[7]).await?;
        stream.flush().await?;
        Ok::<_, io::Error>(peer)
    };
    let (connected, accepted) = tokio::join!(connects, accepts);
    (connected.map_err(|error| error.to_string()), accepted.map_err(|error| error.to_string()))
}

#[tokio::test]
async fn both_ends_know_who_the_other_one_is() {
    let folder = AuthorityFolder::new();
    let node = folder.make("one", &[Role::Node], "node");
    let front = folder.make("one", &[Role::Front, Role::Master], "front");
    for wanted in [None, Some(node.fingerprint())] {
        let (connected, accepted) = meet(&front, &node, Role::Node, wanted).await;
        connected.unwrap();
        let peer = accepted.unwrap();
        assert_eq!(peer.fingerprint(), front.fingerprint());
        assert_eq!(
            [Role::Node, Role::Master, Role::Front, Role::Etcd].map(|role| peer.is(role)),
            [false, true, true, false]
        );
        assert!(peer.test(&[Role::Node]).unwrap_err().contains("none of a node of cluster one"));
        assert!(peer.test(&[Role::Front, Role::Node]).is_ok());
    }
    let (connected, accepted) = meet(&front, &node, Role::Node, Some(front.fingerprint())).await;
    assert!(connected.unwrap_err().contains("another certificate than was registered"));
    assert!(accepted.is_err(), "nothing is said to it");
}

#[tokio::test]
async fn whoever_is_of_another_role_cluster_or_authority_is_not_believed() {
    let (folder, strange) = (AuthorityFolder::new(), AuthorityFolder::new());
    let node = folder.make("one", &[Role::Node], "node");
    let etcd = folder.make("one", &[Role::Etcd], "etcd");
    let other = folder.make("two", &[Role::Node], "other");
    let stranger = strange.make("one", &[Role::Node], "node");
    for server in [&etcd, &other] {
        let (connected, _) = meet(&node, server, Role::Node, None).await;
        assert_eq!(connected.unwrap_err(), "its certificate is of another role or of another cluster");
    }
    let (connected, accepted) = meet(&node, &stranger, Role::Node, None).await;
    assert_eq!(connected.unwrap_err(), "its certificate is of another authority");
    assert!(accepted.unwrap_err().starts_with("the other end ends TLS"));
    // One of another cluster, who asks for a node of this one.
    let other = Identity::new("one", other.pems.clone()).unwrap();
    let (connected, accepted) = meet(&other, &node, Role::Node, None).await;
    assert!(connected.is_ok() && !accepted.unwrap().is(Role::Node));
    let stranger = Identity::new("one", strange_client(&folder, &strange)).unwrap();
    let (connected, accepted) = meet(&stranger, &node, Role::Node, None).await;
    assert_eq!(accepted.unwrap_err(), "its certificate is of another authority");
    assert!(connected.is_err());
}

/// One who believes the authority, and has a certificate of another one.
fn strange_client(folder: &AuthorityFolder, strange: &AuthorityFolder) -> Pems {
    let read = |folder: &AuthorityFolder, name: &str| Pem::read(&folder.0.join(name)).unwrap();
    Pems {
        certificate: read(strange, "node.pem"),
        key: read(strange, "node.key"),
        authority: read(folder, "authority.pem"),
    }
}

#[tokio::test]
async fn two_others_come_with_a_certificate_and_no_more() {
    let folder = AuthorityFolder::new();
    let node = folder.make("one", &[Role::Node], "node");
    let names = [Role::Node.name("one")];
    let two = chained(&folder, 2, &names).identity("one", &[Role::Node]).unwrap().unwrap();
    for (client, server) in [(&two, &node), (&node, &two)] {
        let (connected, accepted) = meet(client, server, Role::Node, None).await;
        connected.unwrap();
        accepted.unwrap();
    }
    // All of these are good.
    let files = chained(&folder, 3, &names);
    let why = "it comes with 3 others, and at most 2 are looked at";
    are_refused(&untested(&files), &node, why).await;
    let said = files.identity("one", &[Role::Node]).map(|_| ()).unwrap_err().to_string();
    assert!(said.ends_with(&format!("chained-3-1.pem: others would refuse it: {why}")), "{said}");
}

#[tokio::test]
async fn certificates_of_many_names_are_not_looked_at() {
    let folder = AuthorityFolder::new();
    let node = folder.make("one", &[Role::Node], "node");
    let names = |count| {
        let others = (0..count).map(|number| format!("host-{number:04}.example.com"));
        others.chain([Role::Node.name("one")]).collect::<Vec<_>>()
    };
    let some = chained(&folder, 0, &names(200)).identity("one", &[Role::Node]).unwrap().unwrap();
    let (connected, accepted) = meet(&some, &node, Role::Node, None).await;
    assert!(connected.is_ok() && accepted.is_ok());
    let many = chained(&folder, 0, &names(800));
    let bytes = untested(&many).own.cert[0].0.len();
    let why = format!("it and its others have {bytes} bytes, and at most 16384 are looked at");
    are_refused(&untested(&many), &node, &why).await;
    assert!(many.identity("one", &[]).map(|_| ()).unwrap_err().to_string().ends_with(&why));
}

#[tokio::test]
async fn what_comes_with_a_certificate_constrains_no_names() {
    let folder = AuthorityFolder::new();
    let node = folder.make("one", &[Role::Node], "node");
    let permitted = "nameConstraints = critical,permitted;DNS:hobbychair.internal";
    let files = chained_by(&folder, 1, &[Role::Node.name("one")], permitted);
    let why = "one that comes with it constrains names, which isn't supported";
    are_refused(&untested(&files), &node, why).await;
    assert!(files.identity("one", &[]).map(|_| ()).unwrap_err().to_string().ends_with(why));
}

/// Neither as a client nor as a server one is taken, and the other end says why.
async fn are_refused(shown: &Identity, node: &Identity, why: &str) {
    let (connected, accepted) = meet(shown, node, Role::Node, None).await;
    assert_eq!(accepted.unwrap_err(), format!("its certificate isn't taken: {why}"));
    assert!(connected.is_err());
    let (connected, accepted) = meet(node, shown, Role::Node, None).await;
    assert_eq!(connected.unwrap_err(), format!("its certificate isn't taken: {why}"));
    assert!(accepted.unwrap_err().starts_with("the other end ends TLS"));
}

#[tokio::test]
async fn who_speaks_no_tls_is_told_from_who_goes() {
    let folder = AuthorityFolder::new();
    let node = folder.make("one", &[Role::Node], "node");
    for (sent, said) in [(&b"GET / HTTP/1.1\r\n\r\n"[..], Some("it doesn't speak TLS")), (b"", None)] {
        let listener = TcpListener::bind("127.0.0.1:0").await.unwrap();
        let mut stream = TcpStream::connect(listener.local_addr().unwrap()).await.unwrap();
        stream.write_all(sent).await.unwrap();
        drop(stream);
        let Err(error) = node.accept(listener.accept().await.unwrap().0).await else { panic!("it is taken in") };
        match said {
            Some(said) => assert_eq!(error.to_string(), said),
            None => assert_eq!(error.kind(), io::ErrorKind::UnexpectedEof),
        }
    }
}

#[test]
fn an_own_certificate_that_others_would_refuse_is_told_at_the_start() {
    let (folder, strange) = (AuthorityFolder::new(), AuthorityFolder::new());
    folder.make("one", &[Role::Front], "front");
    strange.make("one", &[Role::Front], "front");
    let said = |files: &IdentityFiles, cluster: &str, roles: &[Role]| {
        files.identity(cluster, roles).map(|_| ()).unwrap_err().to_string()
    };
    let files = folder.files("front");
    assert!(files.identity("one", &[]).unwrap().is_some() && files.identity("one", &[Role::Node, Role::Front]).is_ok());
    let lacks = said(&files, "one", &[Role::Node]);
    assert!(lacks.ends_with("front.pem: it isn't for this: it lacks the name node.one.hobbychair.internal"), "{lacks}");
    assert!(said(&files, "two", &[Role::Front]).contains("lacks the name front.two."));
    let other = IdentityFiles { authority: strange.files("front").authority, ..files.clone() };
    assert!(said(&other, "one", &[]).contains("front.pem: the authority hasn't signed it"));
    let mixed = IdentityFiles { key: strange.files("front").key, ..files.clone() };
    assert!(said(&mixed, "one", &[]).contains("is not the key of"));
    let half = IdentityFiles { key: None, ..files.clone() };
    assert!(said(&half, "one", &[]).contains("are given together"));
    assert!(said(&files, "A_b", &[]).contains("no name of a cluster with certificates"));
    assert!(IdentityFiles::default().identity("A_b", &[Role::Node]).unwrap().is_none());
}

#[test]
fn an_end_that_is_near_is_known() {
    let folder = AuthorityFolder::new();
    let later = folder.make("one", &[Role::Node], "later");
    make(&CertificateOptions { days: Some(2), ..wanted(&folder.0, "one", &[Role::Node], Some("soon")) }).unwrap();
    let soon = folder.files("soon").identity("one", &[Role::Node]).unwrap().unwrap();
    let ends = |identity: &Identity| [0, 1, 3].map(|days| identity.has_expired_in(days * DAY));
    assert_eq!((ends(&soon), ends(&later)), ([false, false, true], [false, false, false]));
    assert!(soon.has_expired_in(SOON) && !later.has_expired_in(SOON) && later.has_expired_in(366 * DAY));
}

#[test]
fn a_fingerprint_is_a_text_of_64_digits() {
    let empty = Fingerprint::of(&Certificate(Vec::new()));
    assert_eq!(empty.to_string(), "e3b0c44298fc1c149afbf4c8996fb92427ae41e4649b934ca495991b7852b855");
    assert_eq!(Fingerprint::try_from(empty.to_string()), Ok(empty));
    for bad in ["", "e3", &"g".repeat(64), &"é".repeat(32), &"0".repeat(65)] {
        assert!(Fingerprint::try_from(bad.to_string()).is_err(), "{bad}");
    }
}
