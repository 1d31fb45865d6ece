//! What AWS publishes: the example of its documentation, and its test suite for signers.

use super::{header_map, SpoilableRequest};
use crate::access::canonical::canonical_request;
use crate::access::claim::{Claim, Scope};
use crate::access::query::Query;
use crate::access::signature::{string_to_sign, SigningKey};

const SECRET: &str = "wJalrXUtnFEMI/K7MDENG+bPxRfiCYEXAMPLEKEY";

/// A request that was signed by the key and at the time of AWS's examples, over all its headers.
fn request(
    method: &str,
    url: &str,
    headers: &[(&str, &str)],
    body: &str,
    service: &str,
    signature: &str,
) -> SpoilableRequest {
    let (path, query) = url.split_once('?').unwrap_or((url, ""));
    let mut headers = header_map(headers.iter().copied());
    headers.append("x-amz-date", "20150830T123600Z".parse().unwrap());
    let mut names: Vec<&str> = headers.keys().map(|name| name.as_str()).collect();
    names.sort_unstable();
    let authorization = format!(
        "AWS4-HMAC-SHA256 Credential=AKIDEXAMPLE/20150830/us-east-1/{service}/aws4_request, SignedHeaders={}, \
         Signature={signature}",
        names.join(";")
    );
    headers.insert("authorization", authorization.parse().unwrap());
    let (method, path, query, body) = (method.into(), path.into(), query.into(), body.into());
    SpoilableRequest { name: url.into(), method, path, query, headers, body }
}

fn canonical_and_claim(request: &SpoilableRequest) -> (Vec<u8>, Claim) {
    let query = Query::parse(&request.query);
    let claim = Claim::read(&request.signable(), &query).unwrap();
    (canonical_request(&request.signable(), &query, &claim).unwrap(), claim)
}

fn is_right(request: &SpoilableRequest) -> bool {
    let (canonical, claim) = canonical_and_claim(request);
    let key = SigningKey::derive(&SECRET.into(), &claim.scope);
    key.is_right(&string_to_sign(&claim, &canonical), &claim.signature)
}

/// IAM User Guide, "Create a signed AWS API request": ListUsers of IAM.
#[test]
fn the_example_of_the_documentation() {
    let headers = [("content-type", "application/x-www-form-urlencoded; charset=utf-8"), ("host", "iam.amazonaws.com")];
    let signature = "5d672d79c15b13162d9279b0855cfba6789a8edb4c82c400e06b5924a6f2b5d7";
    let request = request("GET", "/?Action=ListUsers&Version=2010-05-08", &headers, "", "iam", signature);
    let (canonical, claim) = canonical_and_claim(&request);
    let expected = "GET\n/\nAction=ListUsers&Version=2010-05-08\n\
        content-type:application/x-www-form-urlencoded; charset=utf-8\nhost:iam.amazonaws.com\n\
        x-amz-date:20150830T123600Z\n\ncontent-type;host;x-amz-date\n\
        e3b0c44298fc1c149afbf4c8996fb92427ae41e4649b934ca495991b7852b855";
    assert_eq!(String::from_utf8(canonical.clone()).unwrap(), expected);
    let expected = "AWS4-HMAC-SHA256\n20150830T123600Z\n20150830/us-east-1/iam/aws4_request\n\
        f536975d06c0309214f805bb90ccff089219ecd68b2577efef23edd43b7e1a59";
    assert_eq!(string_to_sign(&claim, &canonical), expected);
    assert!(is_right(&request));
}

#[test]
fn another_secret_or_scope_gives_another_signature() {
    let signature = "5fa00fa31553b73ebf1942676e86291e8372ff2a2260956d9b8aae1d763fbf31";
    let request = request("GET", "/", &[("host", "example.amazonaws.com")], "", "service", signature);
    let (canonical, claim) = canonical_and_claim(&request);
    let text = string_to_sign(&claim, &canonical);
    let is_right = |secret: &str, scope: &Scope| SigningKey::derive(&secret.into(), scope).is_right(&text, signature);
    assert!(is_right(SECRET, &claim.scope));
    assert!(!is_right("wJalrXUtnFEMI/K7MDENG+bPxRfiCYEXAMPLEKEy", &claim.scope));
    for other in [
        Scope { day: "20150831".into(), ..claim.scope.clone() },
        Scope { region: "us-east-2".into(), ..claim.scope.clone() },
        Scope { service: "services".into(), ..claim.scope.clone() },
        Scope { terminator: "aws4_requests".into(), ..claim.scope.clone() },
    ] {
        assert!(!is_right(SECRET, &other), "{other:?}");
    }
}

/// A case of "AWS Signature Version 4 test suite".
struct Case {
    /// Its name there.
    name: &'static str,
    method: &'static str,
    url: String,
    headers: &'static [(&'static str, &'static str)],
    body: &'static str,
    signature: &'static str,
}

fn get(name: &'static str, url: &str, signature: &'static str) -> Case {
    Case { name, method: "GET", url: url.into(), headers: &[], body: "", signature }
}

fn post(name: &'static str, url: &str, signature: &'static str) -> Case {
    Case { method: "POST", ..get(name, url, signature) }
}

const VANILLA: &str = "5fa00fa31553b73ebf1942676e86291e8372ff2a2260956d9b8aae1d763fbf31";
const UNRESERVED: &str = "-._~0123456789ABCDEFGHIJKLMNOPQRSTUVWXYZabcdefghijklmnopqrstuvwxyz";

fn cases() -> Vec<Case> {
    let unreserved_query = format!("/?{UNRESERVED}={UNRESERVED}");
    let unreserved_path = format!("/{UNRESERVED}");
    vec![
        get("get-vanilla", "/", VANILLA),
        get("get-slash", "//", VANILLA),
        get("get-slash-dot-slash", "/./", VANILLA),
        get("get-relative", "/example/..", VANILLA),
        get("get-relative-relative", "/example1/example2/../..", VANILLA),
        get("get-slashes", "//example//", "9a624bd73a37c9a373b5312afbebe7a714a789de108f0bdfe846570885f57e84"),
        get(
            "get-slash-pointless-dot",
            "/./example",
            "ef75d96142cf21edca26f06005da7988e4f8dc83a165a80865db7089db637ec5",
        ),
        get("get-space", "/example space/", "652487583200325589f1fba4c7e578f72c47cb61beeca81406b39ddec1366741"),
        get("get-utf8", "/\u{1234}", "8318018e0b0f223aa2bbf98705b62bb787dc9c0e678f255a891fd03141be5d85"),
        get("get-unreserved", &unreserved_path, "07ef7494c76fa4850883e2b006601f940f8a34d404d0cfa977f52a65bbf5f24f"),
        get(
            "get-vanilla-empty-query-key",
            "/?Param1=value1",
            "a67d582fa61cc504c4bae71f336f98b97f1ea3c7a6bfe1b6e45aec72011b9aeb",
        ),
        get(
            "get-vanilla-query-order-key-case",
            "/?Param2=value2&Param1=value1",
            "b97d918cfa904a5beff61c982a1b6f458b799221646efd99d3219ec94cdf2500",
        ),
        get(
            "get-vanilla-query-order-key",
            "/?Param1=value2&Param1=Value1",
            "eedbc4e291e521cf13422ffca22be7d2eb8146eecf653089df300a15b2382bd1",
        ),
        get(
            "get-vanilla-query-order-value",
            "/?Param1=value2&Param1=value1",
            "5772eed61e12b33fae39ee5e7012498b51d56abc0abb7c60486157bd471c4694",
        ),
        get(
            "get-vanilla-query-unreserved",
            &unreserved_query,
            "9c3e54bfcdf0b19771a7f523ee5669cdf59bc7cc0884027167c21bb143a40197",
        ),
        get(
            "get-vanilla-utf8-query",
            "/?\u{1234}=bar",
            "2cdec8eed098649ff3a119c94853b13c643bcf08f8b0a1d91e12c9027818dd04",
        ),
        Case {
            headers: &[("my-header1", "value2"), ("my-header1", "value2"), ("my-header1", "value1")],
            ..get("get-header-key-duplicate", "/", "c9d5ea9f3f72853aea855b47ea873832890dbdd183b4468f858259531a5138ea")
        },
        Case {
            headers: &[
                ("my-header1", "value4"),
                ("my-header1", "value1"),
                ("my-header1", "value3"),
                ("my-header1", "value2"),
            ],
            ..get("get-header-value-order", "/", "08c7e5a9acfcfeb3ab6b2185e75ce8b1deb5e634ec47601a50643f830c755c01")
        },
        Case {
            headers: &[("my-header1", " value1"), ("my-header2", " \"a   b   c\"")],
            ..get("get-header-value-trim", "/", "acc3ed3afb60bb290fc8d2dd0098b9911fcaa05412b367055dee359757a9c736")
        },
        post("post-vanilla", "/", "5da7c1a2acd57cee7505fc6676e4e544621c30862966e37dddb68e92efbe5d6b"),
        post(
            "post-vanilla-query",
            "/?Param1=value1",
            "28038455d6de14eafc1f9222cf5aa6f1a96197d7deb8263271d420d138af7f11",
        ),
        Case {
            headers: &[("my-header1", "value1")],
            ..post("post-header-key-sort", "/", "c5410059b04c1ee005303aed430f6e6645f61f4dc9e1461ec8f8916fdf18852c")
        },
        Case {
            headers: &[("my-header1", "VALUE1")],
            ..post("post-header-value-case", "/", "cdbc9802e29d2942e5e10b5bccfdd67c5f22c7c4e8ae67b53629efa58b974b7d")
        },
        Case {
            headers: &[("content-type", "application/x-www-form-urlencoded")],
            body: "Param1=value1",
            ..post(
                "post-x-www-form-urlencoded",
                "/",
                "ff11897932ad3f4e8b18135d722051e5ac45fc38421b1da7b9d196a0fe09473a",
            )
        },
        Case {
            headers: &[("content-type", "application/x-www-form-urlencoded; charset=utf8")],
            body: "Param1=value1",
            ..post(
                "post-x-www-form-urlencoded-parameters",
                "/",
                "1a72ec8f64bd914b0e42e42607c7fbce7fb2c7465f63e3092b3b0d39fa77a6fe",
            )
        },
    ]
}

#[test]
fn the_test_suite() {
    for Case { name, method, url, headers, body, signature } in cases() {
        let headers: Vec<_> = headers.iter().copied().chain([("host", "example.amazonaws.com")]).collect();
        assert!(is_right(&request(method, &url, &headers, body, "service", signature)), "{name}");
    }
}
