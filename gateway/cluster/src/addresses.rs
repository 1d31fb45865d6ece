//! Where a process listens, and where others find it.

use std::net::SocketAddr;

use anyhow::{bail, Context, Result};
use tokio::net::lookup_host;

/// Where something listens, and where it says that it is found, if that is said.
#[derive(Clone, Debug, PartialEq, Eq)]
pub struct Place {
    pub listen: SocketAddr,
    /// HOST:PORT. A name is looked up once.
    pub advertise: Option<String>,
}

impl Place {
    /// Where others find it once it listens at `local`. `whose` says whose address it is, and `option` how another one is
    /// advertised. Where nobody has a certificate, all addresses are of this machine.
    pub async fn found_at(
        &self,
        local: SocketAddr,
        whose: &str,
        option: &str,
        has_certificates: bool,
    ) -> Result<SocketAddr> {
        let found = match &self.advertise {
            Some(advertised) => look_up(advertised, self.listen.is_ipv6()).await?,
            None if local.ip().is_unspecified() => {
                bail!("{local} is no address at which others find {whose}: say one by {option}")
            }
            None => local,
        };
        if found.ip().is_unspecified() || found.port() == 0 {
            bail!("{found} is no address at which others find {whose}");
        }
        if !has_certificates {
            test_here(found, whose)?;
        }
        Ok(found)
    }
}

/// Without certificates only this machine is listened to.
pub fn test_here(address: SocketAddr, whose: &str) -> Result<()> {
    if !address.ip().is_loopback() {
        bail!("{address} isn't on this machine: without certificates (--certificate) {whose} has a loopback address");
    }
    Ok(())
}

/// The first address of the kind that is listened at, or else of another kind.
async fn look_up(advertised: &str, is_ipv6: bool) -> Result<SocketAddr> {
    let wrong = || format!("{advertised} is no address, as 10.0.0.1:7001 or host:7001, that can be looked up");
    let found: Vec<SocketAddr> = lookup_host(advertised).await.with_context(wrong)?.collect();
    let same = found.iter().find(|address| address.is_ipv6() == is_ipv6);
    same.or(found.first()).copied().with_context(wrong)
}

#[cfg(test)]
mod tests {
    use super::*;

    async fn found(listen: &str, advertise: Option<&str>, has_certificates: bool) -> Result<String> {
        let listen: SocketAddr = listen.parse().unwrap();
        let place = Place { listen, advertise: advertise.map(String::from) };
        let found = place.found_at(listen, "a node", "--advertise", has_certificates).await;
        found.map(|address| address.to_string())
    }

    #[tokio::test]
    async fn what_is_advertised_can_be_reached() {
        assert_eq!(found("127.0.0.1:7", None, false).await.unwrap(), "127.0.0.1:7");
        assert_eq!(found("0.0.0.0:7", Some("10.0.0.1:8"), true).await.unwrap(), "10.0.0.1:8");
        assert_eq!(found("127.0.0.1:7", Some("localhost:8"), false).await.unwrap(), "127.0.0.1:8");
        let without = found("0.0.0.0:7", None, true).await.unwrap_err().to_string();
        assert!(without.contains("no address at which others find a node: say one by --advertise"), "{without}");
        for bad in ["0.0.0.0:7", "10.0.0.1:0", "10.0.0.1", "10.0.0.1:x", ""] {
            assert!(found("0.0.0.0:7", Some(bad), true).await.is_err(), "{bad}");
        }
        assert!(found("127.0.0.1:7", Some("10.0.0.1:8"), false)
            .await
            .unwrap_err()
            .to_string()
            .contains("on this machine"));
    }
}
