//! Tables as the tests of the portal write them too, and requests as the oracle takes them.

use oracle::Request;
pub use support::build::*;

pub fn request(principal: &str, action: &str, resource: &str) -> Request {
    Request {
        principal: principal.into(),
        action: action.into(),
        resource: resource.into(),
        ..Request::default()
    }
}
