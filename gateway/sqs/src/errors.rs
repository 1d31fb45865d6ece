//! The errors of SQS, with their codes and statuses.

use thiserror::Error;

/// A refusal as a client is told of it. Its text is the `message`.
#[derive(Clone, Debug, PartialEq, Eq, Error)]
pub enum SqsError {
    #[error("The specified queue does not exist.")]
    QueueDoesNotExist,
    /// A URL that is of no queue.
    #[error("The address {0} is not valid for this endpoint.")]
    InvalidAddress(String),
    #[error("A queue already exists with the same name and a different value for attribute {attribute}")]
    QueueNameExists { attribute: String },
    #[error("You must wait 60 seconds after deleting a queue before you can create another with the same name.")]
    QueueDeletedRecently,
    #[error("Only one PurgeQueue operation on {queue} is allowed every 60 seconds.")]
    PurgeQueueInProgress { queue: String },
    #[error("The input receipt handle is invalid.")]
    ReceiptHandleIsInvalid,
    #[error("The message referred to isn't in flight.")]
    MessageNotInflight,
    /// A handle that was good once, and its text.
    #[error("Value {handle} for parameter ReceiptHandle is invalid. Reason: {reason}")]
    StaleHandle { handle: String, reason: Stale },
    #[error("{0}")]
    InvalidParameterValue(String),
    #[error("The request must contain the parameter {0}.")]
    MissingParameter(String),
    #[error(
        "Invalid characters found. Valid unicode characters are #x9 | #xA | #xD | #x20 to #xD7FF | #xE000 to #xFFFD | #x10000 to #x10FFFF"
    )]
    InvalidMessageContents,
    #[error("Unknown Attribute {0}.")]
    InvalidAttributeName(String),
    #[error("Invalid value for the parameter {name}.{reason}")]
    InvalidAttributeValue { name: String, reason: String },
    #[error("There should be at least one entry in the request.")]
    EmptyBatchRequest,
    #[error("Maximum number of entries per request are 10. You have sent {0}.")]
    TooManyEntriesInBatchRequest(usize),
    #[error("Id {0} repeated.")]
    BatchEntryIdsNotDistinct(String),
    #[error(
        "A batch entry id can only contain alphanumeric characters, hyphens and underscores. It can be at most 80 letters long."
    )]
    InvalidBatchEntryId,
    #[error("Batch requests cannot be longer than {limit} bytes. You have sent {sent} bytes.")]
    BatchRequestTooLong { limit: usize, sent: usize },
    #[error("{0}")]
    ResourceNotFound(String),
    #[error("{0}")]
    UnsupportedOperation(String),
    /// A request in JSON that can't be read as what its action takes.
    #[error("{0}")]
    Serialization(String),
    #[error("The action {0} is not valid for this endpoint.")]
    UnknownOperation(String),
    #[error("A request has at most {limit} bytes.")]
    RequestTooLong { limit: usize },
    #[error("The request wasn't whole in time.")]
    RequestTimeout,
    #[error("{0}")]
    OverLimit(String),
    #[error("{0}")]
    InternalFailure(String),
    #[error("{0}")]
    ServiceUnavailable(String),
    /// A front hasn't the room that the answer to a receive may take, so nothing was received. It is told how many bytes that are.
    #[error("The answer may have {0} bytes, and the front has no room for so many.")]
    NeedsRoom(usize),
    #[error("Request is missing Authentication Token")]
    MissingAuthenticationToken,
    #[error("{0}")]
    IncompleteSignature(String),
    /// The access key is unknown.
    #[error("The security token included in the request is invalid.")]
    UnrecognizedClient,
    #[error("{0}")]
    InvalidSignature(String),
    /// A presigned request is over.
    #[error("Request has expired.")]
    RequestExpired,
    /// `action` is in lower case, and `resource` an ARN.
    #[error(
        "User: {user} is not authorized to perform: sqs:{action} on resource: {resource} \
         because no identity-based policy allows the sqs:{action} action"
    )]
    AccessDenied { user: String, action: String, resource: String },
    /// A page in a browser sent it, and nobody asks for keys.
    #[error("Requests of pages in browsers aren't served without --credentials, and this one comes from {0}.")]
    OtherSite(String),
    /// All of it may stand in a link, and nobody asks for keys.
    #[error(
        "Without --credentials a GET may be a link that somebody has followed, or a picture of a page, so it doesn't do {0}: \
         send it as a POST."
    )]
    MayBeLink(&'static str),
    /// It names a host that isn't the gateway's, and nobody asks for keys.
    #[error(
        "The gateway isn't known as {0}. Without --credentials it is reached by an address, as localhost, under --url, \
         or by the names of --allowed-hosts."
    )]
    UnknownHost(String),
}

/// Why a handle isn't good any more.
#[derive(Clone, Copy, Debug, PartialEq, Eq, Error)]
pub enum Stale {
    /// The timeout is over, and the message wasn't handed out again (API Reference, DeleteMessage).
    #[error("The receipt handle has expired.")]
    Expired,
    /// The message is deleted (API Reference, ChangeMessageVisibility).
    #[error("Message does not exist or is not available for visibility timeout change.")]
    NoMessage,
}

/// The most characters of a refusal.
const MOST_TOLD_CHARACTERS: usize = 1_024;

/// How both protocols name an error.
#[derive(Clone, Copy, Debug, PartialEq, Eq)]
pub struct Coded {
    /// What stands under `__type` in the JSON protocol.
    pub type_name: &'static str,
    /// The code of the query protocol, which the JSON protocol gives in `x-amzn-query-error`.
    pub code: &'static str,
    /// The HTTP status.
    pub status: u16,
}

impl SqsError {
    /// The row of this error in the table of codes (API Reference, "Common Errors" and each action's errors).
    pub fn coded(&self) -> Coded {
        let (type_name, code, status) = match self {
            SqsError::QueueDoesNotExist => {
                ("com.amazonaws.sqs#QueueDoesNotExist", "AWS.SimpleQueueService.NonExistentQueue", 400)
            }
            SqsError::InvalidAddress(_) => ("com.amazonaws.sqs#InvalidAddress", "InvalidAddress", 404),
            SqsError::QueueNameExists { .. } => ("com.amazonaws.sqs#QueueNameExists", "QueueAlreadyExists", 400),
            SqsError::QueueDeletedRecently => {
                ("com.amazonaws.sqs#QueueDeletedRecently", "AWS.SimpleQueueService.QueueDeletedRecently", 400)
            }
            SqsError::PurgeQueueInProgress { .. } => {
                ("com.amazonaws.sqs#PurgeQueueInProgress", "AWS.SimpleQueueService.PurgeQueueInProgress", 403)
            }
            SqsError::ReceiptHandleIsInvalid => {
                ("com.amazonaws.sqs#ReceiptHandleIsInvalid", "ReceiptHandleIsInvalid", 400)
            }
            SqsError::MessageNotInflight => {
                ("com.amazonaws.sqs#MessageNotInflight", "AWS.SimpleQueueService.MessageNotInflight", 400)
            }
            SqsError::InvalidParameterValue(_) | SqsError::StaleHandle { .. } => {
                ("com.amazonaws.sqs#InvalidParameterValue", "InvalidParameterValue", 400)
            }
            SqsError::MissingParameter(_) => {
                ("com.amazon.coral.service#MissingRequiredParameterException", "MissingParameter", 400)
            }
            SqsError::InvalidMessageContents => {
                ("com.amazonaws.sqs#InvalidMessageContents", "InvalidMessageContents", 400)
            }
            SqsError::InvalidAttributeName(_) => {
                ("com.amazonaws.sqs#InvalidAttributeName", "InvalidAttributeName", 400)
            }
            SqsError::InvalidAttributeValue { .. } => {
                ("com.amazonaws.sqs#InvalidAttributeValue", "InvalidAttributeValue", 400)
            }
            SqsError::EmptyBatchRequest => {
                ("com.amazonaws.sqs#EmptyBatchRequest", "AWS.SimpleQueueService.EmptyBatchRequest", 400)
            }
            SqsError::TooManyEntriesInBatchRequest(_) => (
                "com.amazonaws.sqs#TooManyEntriesInBatchRequest",
                "AWS.SimpleQueueService.TooManyEntriesInBatchRequest",
                400,
            ),
            SqsError::BatchEntryIdsNotDistinct(_) => {
                ("com.amazonaws.sqs#BatchEntryIdsNotDistinct", "AWS.SimpleQueueService.BatchEntryIdsNotDistinct", 400)
            }
            SqsError::InvalidBatchEntryId => {
                ("com.amazonaws.sqs#InvalidBatchEntryId", "AWS.SimpleQueueService.InvalidBatchEntryId", 400)
            }
            SqsError::BatchRequestTooLong { .. } => {
                ("com.amazonaws.sqs#BatchRequestTooLong", "AWS.SimpleQueueService.BatchRequestTooLong", 400)
            }
            SqsError::ResourceNotFound(_) => {
                ("com.amazonaws.sqs#ResourceNotFoundException", "ResourceNotFoundException", 404)
            }
            SqsError::UnsupportedOperation(_) => {
                ("com.amazonaws.sqs#UnsupportedOperation", "AWS.SimpleQueueService.UnsupportedOperation", 400)
            }
            SqsError::Serialization(_) => {
                ("com.amazon.coral.service#SerializationException", "SerializationException", 400)
            }
            SqsError::UnknownOperation(_) => {
                ("com.amazon.coral.service#UnknownOperationException", "InvalidAction", 400)
            }
            SqsError::RequestTooLong { .. } => {
                ("com.amazon.coral.service#RequestEntityTooLargeException", "RequestEntityTooLarge", 413)
            }
            SqsError::RequestTimeout => ("com.amazon.coral.service#RequestTimeoutException", "RequestTimeout", 408),
            SqsError::OverLimit(_) => ("com.amazonaws.sqs#OverLimit", "OverLimit", 403),
            SqsError::InternalFailure(_) => ("com.amazonaws.sqs#InternalFailure", "InternalFailure", 500),
            SqsError::ServiceUnavailable(_) | SqsError::NeedsRoom(_) => {
                ("com.amazonaws.sqs#ServiceUnavailable", "ServiceUnavailable", 503)
            }
            SqsError::MissingAuthenticationToken => {
                ("com.amazon.coral.service#MissingAuthenticationTokenException", "MissingAuthenticationToken", 403)
            }
            SqsError::IncompleteSignature(_) => {
                ("com.amazon.coral.service#IncompleteSignatureException", "IncompleteSignature", 400)
            }
            SqsError::UnrecognizedClient => {
                ("com.amazon.coral.service#UnrecognizedClientException", "InvalidClientTokenId", 403)
            }
            SqsError::InvalidSignature(_) => {
                ("com.amazon.coral.service#InvalidSignatureException", "SignatureDoesNotMatch", 403)
            }
            SqsError::RequestExpired => ("com.amazon.coral.service#RequestExpired", "RequestExpired", 403),
            SqsError::AccessDenied { .. }
            | SqsError::MayBeLink(_)
            | SqsError::OtherSite(_)
            | SqsError::UnknownHost(_) => ("com.amazon.coral.service#AccessDeniedException", "AccessDenied", 403),
        };
        Coded { type_name, code, status }
    }

    /// The text as clients are told it: what they sent may stand in it, and a refusal isn't as long as what it refuses.
    pub fn client_message(&self) -> String {
        let mut text = self.to_string();
        if let Some((end, _)) = text.char_indices().nth(MOST_TOLD_CHARACTERS) {
            text.truncate(end);
            text.push('…');
        }
        text
    }

    /// Whether the fault is the client's: every error below 500.
    pub fn is_sender_fault(&self) -> bool {
        self.coded().status < 500
    }

    /// `InvalidParameterValue` for a value that is out of range.
    pub fn out_of_range(value: &str, parameter: &str, least: i64, most: i64) -> SqsError {
        SqsError::InvalidParameterValue(format!(
            "Value {value} for parameter {parameter} is invalid. Reason: Must be between {least} and {most}, if provided."
        ))
    }

    /// `InvalidAttributeValue`, with a reason or an empty text.
    pub fn attribute_value(name: &str, reason: &str) -> SqsError {
        let reason = if reason.is_empty() { String::new() } else { format!(" {reason}") };
        SqsError::InvalidAttributeValue { name: name.into(), reason }
    }

    /// A send has no deduplication id, and its queue makes none.
    pub fn missing_dedup_id() -> SqsError {
        SqsError::InvalidParameterValue(
            "The queue should either have ContentBasedDeduplication enabled or MessageDeduplicationId provided explicitly"
                .into(),
        )
    }

    /// A parameter that queues of the other kind have.
    pub fn not_of_this_kind(parameter: &str, value: &str) -> SqsError {
        SqsError::InvalidParameterValue(format!(
            "Value {value} for parameter {parameter} is invalid. Reason: The request include parameter that is not \
             valid for this queue type."
        ))
    }

    /// The task that owns the program has ended, and no answer comes.
    pub fn store_is_gone() -> SqsError {
        SqsError::ServiceUnavailable("The store is gone.".into())
    }

    /// A delete comes after the timeout. Its handle isn't known here.
    pub fn of_expiry() -> SqsError {
        SqsError::StaleHandle { handle: String::new(), reason: Stale::Expired }
    }

    /// A change is of a deleted message. Its handle isn't known here.
    pub fn of_no_message() -> SqsError {
        SqsError::StaleHandle { handle: String::new(), reason: Stale::NoMessage }
    }

    /// The error with the handle that it is about.
    pub fn about_handle(self, handle: &str) -> SqsError {
        match self {
            SqsError::StaleHandle { reason, .. } => SqsError::StaleHandle { handle: handle.into(), reason },
            other => other,
        }
    }

    /// A signature isn't that of the request by the secret of its key.
    pub fn wrong_signature() -> SqsError {
        SqsError::InvalidSignature(
            "The request signature we calculated does not match the signature you provided. Check your AWS Secret \
             Access Key and signing method. Consult the service documentation for details."
                .into(),
        )
    }

    /// The error for a refusal of the store, by its number (`docs/LINES.md`).
    pub fn of_refusal(code: u32) -> SqsError {
        match code {
            1 => SqsError::QueueDoesNotExist,
            2 => SqsError::QueueNameExists { attribute: "VisibilityTimeout".into() },
            3 => SqsError::QueueDeletedRecently,
            4 => SqsError::ReceiptHandleIsInvalid,
            5 => SqsError::MessageNotInflight,
            6 => SqsError::InvalidParameterValue(
                "Total VisibilityTimeout for the message is beyond the limit [43200 seconds]".into(),
            ),
            8 => SqsError::missing_dedup_id(),
            14 => SqsError::InvalidMessageContents,
            _ => SqsError::InternalFailure(format!("The store refused this ({code}).")),
        }
    }
}

#[cfg(test)]
mod tests {
    use super::*;

    #[test]
    fn codes_and_shapes_are_those_of_the_service() {
        let coded = SqsError::QueueDoesNotExist.coded();
        assert_eq!(coded.code, "AWS.SimpleQueueService.NonExistentQueue");
        assert_eq!(coded.type_name, "com.amazonaws.sqs#QueueDoesNotExist");
        let coded = SqsError::InvalidAddress("x".into()).coded();
        assert_eq!(
            (coded.type_name, coded.code, coded.status),
            ("com.amazonaws.sqs#InvalidAddress", "InvalidAddress", 404)
        );
        assert_eq!(SqsError::of_refusal(99).coded().status, 500);
        assert!(!SqsError::of_refusal(99).is_sender_fault());
        let long = SqsError::InvalidParameterValue("é".repeat(5_000)).client_message();
        assert_eq!(long.chars().count(), 1_025);
        let error = SqsError::attribute_value("DelaySeconds", "It must be 0.");
        assert_eq!(error.to_string(), "Invalid value for the parameter DelaySeconds. It must be 0.");
    }

    #[test]
    fn codes_of_who_may_come_in() {
        let denied = SqsError::AccessDenied { user: "a".into(), action: "b".into(), resource: "c".into() };
        for (error, type_name, code, status) in [
            (
                SqsError::MissingAuthenticationToken,
                "MissingAuthenticationTokenException",
                "MissingAuthenticationToken",
                403,
            ),
            (SqsError::IncompleteSignature("a".into()), "IncompleteSignatureException", "IncompleteSignature", 400),
            (SqsError::UnrecognizedClient, "UnrecognizedClientException", "InvalidClientTokenId", 403),
            (SqsError::wrong_signature(), "InvalidSignatureException", "SignatureDoesNotMatch", 403),
            (SqsError::RequestExpired, "RequestExpired", "RequestExpired", 403),
            (denied, "AccessDeniedException", "AccessDenied", 403),
        ] {
            let type_name = format!("com.amazon.coral.service#{type_name}");
            let coded = error.coded();
            assert_eq!((coded.type_name, coded.code, coded.status), (type_name.as_str(), code, status));
            assert!(error.is_sender_fault());
        }
    }
}
