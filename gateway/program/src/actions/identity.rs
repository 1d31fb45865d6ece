//! Who asks.

use hobbychair_sqs::wire::Response;

use super::{Actions, Caller, Performed};

impl Actions {
    /// The key that signed, as a user of the one account; the account itself where nobody looks at signatures (Security
    /// Token Service API Reference, GetCallerIdentity).
    pub(super) fn identify(&self, caller: &Caller) -> Performed {
        let account = self.owner.account.clone();
        let (user, kind) = match &caller.identity {
            Some(identity) => (identity.name().to_string(), format!("user/{}", identity.name())),
            None => (account.clone(), "root".into()),
        };
        let arn = format!("arn:aws:iam::{account}:{kind}");
        Response::Caller { account, arn, user }.into()
    }
}
