//! The keys of a file, which can be read again while requests come in.

use std::collections::HashMap;
use std::fmt;
use std::fs;
use std::path::{Path, PathBuf};
use std::sync::{Arc, Mutex, PoisonError, RwLock};
use std::time::SystemTime;

use anyhow::{anyhow, Result};

use super::canonical::canonical_request;
use super::claim::{Claim, Scope};
use super::file::{self, Secret};
use super::identity::Identity;
use super::query::Query;
use super::signature::{string_to_sign, SigningKey};
use super::timestamp::Timestamp;
use super::Signable;
use crate::action::Action;
use crate::errors::SqsError;
use crate::texts::QueueName;

/// The keys of a file, which can be read again while requests come in.
pub struct Keys {
    path: PathBuf,
    table: RwLock<Arc<Table>>,
    /// Whoever reads the file last is also the last to put its keys in.
    reading: Mutex<()>,
}

type Table = HashMap<String, Key>;

struct Key {
    identity: Arc<Identity>,
    secret: Secret,
    /// What was made of the secret for the last good signature: a client keeps its scope for a day.
    last: Mutex<Option<(Scope, SigningKey)>>,
}

impl Keys {
    /// Reads a file of keys. An error is one line that names the file, the key and what is wrong, and has no secret.
    pub fn read(path: &Path) -> Result<Keys> {
        let table = RwLock::new(Arc::new(read_table(path)?));
        Ok(Keys { path: path.into(), table, reading: Mutex::new(()) })
    }

    /// Reads the file again, and puts all its keys in the place of all the old ones. On an error the old ones stay.
    pub fn read_again(&self) -> Result<()> {
        let _reading = self.reading.lock().unwrap_or_else(PoisonError::into_inner);
        let table = Arc::new(read_table(&self.path)?);
        *self.table.write().unwrap_or_else(PoisonError::into_inner) = table;
        Ok(())
    }

    /// Who signed a request for a service. `now` is the time of the wall clock. Takes time in proportion to the request.
    pub fn verify(&self, request: &Signable<'_>, service: &str, now: SystemTime) -> Result<Arc<Identity>, SqsError> {
        let now = Timestamp::of_system_time(now)
            .ok_or_else(|| SqsError::InternalFailure("The clock is at no time that signatures have.".into()))?;
        let query = Query::parse(request.query);
        let claim = Claim::read(request, &query)?;
        let table = self.table.read().unwrap_or_else(PoisonError::into_inner).clone();
        let key = table.get(&claim.access_key).ok_or(SqsError::UnrecognizedClient)?;
        claim.test_scope(service)?;
        claim.test_moment(&now)?;
        claim.test_signed_headers(request.headers)?;
        let canonical = canonical_request(request, &query, &claim)?;
        if !key.has_signed(&claim, &string_to_sign(&claim, &canonical)) {
            return Err(SqsError::wrong_signature());
        }
        Ok(key.identity.clone())
    }
}

impl Keys {
    /// Whether the key of this name may do something to a queue at this moment. One that isn't in the file any more may
    /// do nothing.
    pub fn allow(&self, access_key: &str, action: Action, queue: &QueueName) -> bool {
        let table = self.table.read().unwrap_or_else(PoisonError::into_inner).clone();
        table.get(access_key).is_some_and(|key| key.identity.may(action, Some(queue)))
    }
}

impl fmt::Debug for Keys {
    fn fmt(&self, formatter: &mut fmt::Formatter<'_>) -> fmt::Result {
        formatter.debug_struct("Keys").field("path", &self.path).finish_non_exhaustive()
    }
}

impl Key {
    fn has_signed(&self, claim: &Claim, text: &str) -> bool {
        let last = self.last.lock().unwrap_or_else(PoisonError::into_inner).clone();
        if let Some((_, key)) = last.filter(|(scope, _)| *scope == claim.scope) {
            return key.is_right(text, &claim.signature);
        }
        let key = SigningKey::derive(&self.secret, &claim.scope);
        let is_right = key.is_right(text, &claim.signature);
        if is_right {
            *self.last.lock().unwrap_or_else(PoisonError::into_inner) = Some((claim.scope.clone(), key));
        }
        is_right
    }
}

fn read_table(path: &Path) -> Result<Table> {
    let text = fs::read_to_string(path).map_err(|error| anyhow!("{}: {error}", path.display()))?;
    let keys = file::parse(&text).map_err(|fault| anyhow!("{}: {fault}", path.display()))?;
    let keys = keys
        .into_iter()
        .map(|(name, (identity, secret))| (name, Key { identity: Arc::new(identity), secret, last: Mutex::new(None) }));
    Ok(keys.collect())
}
