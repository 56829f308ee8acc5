//! Calls on a kernel, each answered by a plain value.
use base_text::boxed::Boxed;
use base_text::sequence::{Bytes, Frames};
use base_text::text::Text;
use jup_wire::channel::Channel;
use kern_core::call::{Arrival, Call, Reply};
use kern_core::fault::KernelFault;
use kern_core::kernel::Kernel;
use kern_post::post::Post;
use kern_request::request::{ExecuteRequest, Request, RequestBody};
use std::alloc::{AllocError, Global};

/// 2026-01-01T00:00:00Z.
const MOMENT: u64 = 1_767_225_600;

const HEADER: &[u8] = b"{\"date\":\"2026-01-01T00:00:00Z\",\"msg_id\":\"c_1\",\
    \"msg_type\":\"kernel_info_request\",\"session\":\"c\",\"username\":\"u\",\"version\":\"5.4\"}";

/// What is asked.
#[derive(Clone, Copy)]
pub enum Question {
    KernelInfo,
    Execute(&'static str),
}

fn execution(code: Text) -> RequestBody {
    RequestBody::Execute(ExecuteRequest {
        code,
        is_silent: false,
        stores_history: true,
        allows_stdin: false,
    })
}

fn body(alloc: Global, question: Question) -> Result<RequestBody, AllocError> {
    match question {
        Question::KernelInfo => Ok(RequestBody::KernelInfo),
        Question::Execute(code) => Ok(execution(Text::copy_of(alloc, code)?)),
    }
}

fn arrival(body: RequestBody, header: Bytes, alloc: Global) -> Arrival {
    Arrival {
        request: Request {
            body,
            identities: Frames::new(alloc),
            header,
        },
        unix_seconds: MOMENT,
    }
}

fn hold_arrival(alloc: Global, question: Question) -> Result<Boxed<Arrival>, AllocError> {
    let header = Bytes::copy_of(alloc, HEADER)?;
    Boxed::new(alloc, arrival(body(alloc, question)?, header, alloc))
}

fn is_accepted(kernel: &mut Kernel, call: Call) -> bool {
    let answer = kernel.act(call);
    let is_accepted = answer.is_ok();
    drop(answer);
    is_accepted
}

/// A frontend comes on shell. Whether the call was accepted.
pub fn join(alloc: Global, kernel: &mut Kernel) -> Result<bool, AllocError> {
    let identity = Boxed::new(alloc, Bytes::new(alloc))?;
    let channel = Channel::Shell;
    Ok(is_accepted(kernel, Call::Join { channel, identity }))
}

/// A request arrives on connection 1. Whether the call was accepted.
pub fn arrive(alloc: Global, kernel: &mut Kernel, question: Question) -> Result<bool, AllocError> {
    let arrival = hold_arrival(alloc, question)?;
    let connection = 1;
    Ok(is_accepted(
        kernel,
        Call::Arrive {
            connection,
            arrival,
        },
    ))
}

/// The kernel goes on. Whether the call was accepted.
pub fn slice(kernel: &mut Kernel) -> bool {
    is_accepted(
        kernel,
        Call::Slice {
            unix_seconds: MOMENT,
        },
    )
}

/// What a fetch for connection 1 answers.
pub fn fetch(kernel: &mut Kernel, from: u64) -> Result<Reply, KernelFault> {
    let connection = 1;
    kernel.act(Call::Fetch { connection, from })
}

/// The posts of an answer, and the number to go on from.
pub fn posts_in(reply: &Result<Reply, KernelFault>) -> Option<(&[Post], u64)> {
    match reply {
        Ok(Reply::Fetched { posts, next, .. }) => Some((posts.as_slice(), *next)),
        _ => None,
    }
}
