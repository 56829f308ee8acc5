//! A kernel with one frontend, and the work that is timed on it.
use crate::calls::{Question, arrive, fetch, join, posts_in, slice};
use kern_core::call::Reply;
use kern_core::fault::KernelFault;
use kern_core::kernel::Kernel;
use kern_post::post::Post;
use kern_render::rendering::render;
use std::alloc::{AllocError, Global};

/// The greatest limit of a journal.
const LIMIT: u32 = 4_194_304;

/// A key as long as Jupyter's are.
const KEY: &[u8] = b"0123456789abcdef0123456789abcdef0123";

const SESSION: &str = "01234567-89ab-4cde-8f01-23456789abcd";

/// A cell that never ends.
const ENDLESS: &str = "X: JMP X\nEND X\n";

/// A cell that waits for ever: each slice of it is a turn without a step.
const WAITING: &str = "EI\nHLT\nEND 0\n";

/// A cell that ends at once.
const SHORT: &str = "HLT\nEND 0\n";

/// A kernel with a frontend on shell, which is connection 1, and the number of the first post that it
/// hasn't fetched.
#[derive(Drop)]
pub struct Shell {
    kernel: Kernel,
    from: u64,
}

/// What is timed, each with one unit of work.
#[derive(Clone, Copy)]
pub enum Work {
    /// A kernel_info_request, the fetch of its reply, and the reply's frames.
    Info,
    /// An execute_request of a cell that ends at once, its slices, and the fetch of its reply.
    Execution,
    /// A fetch that covers 64 posts, of which 21 are to the connection.
    Fetch,
    /// A slice of a cell that never ends.
    Slice,
    /// A slice of a cell that waits for an interrupt, which makes no step.
    Wait,
    /// A slice of a kernel that has nothing to do.
    Idle,
}

impl Work {
    /// The work of this name.
    pub fn from_name(word: &str) -> Option<Work> {
        match word {
            "requests" => Some(Work::Info),
            "executions" => Some(Work::Execution),
            "fetches" => Some(Work::Fetch),
            "slices" => Some(Work::Slice),
            "waits" => Some(Work::Wait),
            "idle" => Some(Work::Idle),
            _ => None,
        }
    }
}

fn frame_count(alloc: Global, post: &Post) -> Result<u64, AllocError> {
    let frames = render(alloc, post, KEY, SESSION)?;
    let count = frames.len() as u64;
    drop(frames);
    Ok(count)
}

// How many frames all posts have.
fn frame_counts(alloc: Global, posts: &[Post]) -> Result<u64, AllocError> {
    let mut frames = 0u64;
    for post in posts {
        frames = frames.saturating_add(frame_count(alloc, post)?);
    }
    Ok(frames)
}

// How many posts were fetched, and the number to go on from.
fn count_posts(reply: &Result<Reply, KernelFault>, from: u64) -> (u64, u64) {
    match posts_in(reply) {
        Some((posts, next)) => (posts.len() as u64, next),
        None => (0, from),
    }
}

// How many frames the posts have that were fetched, and the number to go on from.
fn render_posts(
    alloc: Global,
    reply: &Result<Reply, KernelFault>,
    from: u64,
) -> Result<(u64, u64), AllocError> {
    match posts_in(reply) {
        Some((posts, next)) => Ok((frame_counts(alloc, posts)?, next)),
        None => Ok((0, from)),
    }
}

impl Shell {
    /// A kernel with the longest journal, whose frontend has come.
    pub fn new(alloc: Global) -> Result<Shell, AllocError> {
        let mut kernel = Kernel::new(alloc, LIMIT)?;
        match join(alloc, &mut kernel) {
            Ok(_) => Ok(Shell { kernel, from: 1 }),
            Err(_) => {
                drop(kernel);
                Err(AllocError)
            }
        }
    }

    /// Gets the kernel to where units of this work can be done.
    pub fn prepare(&mut self, alloc: Global, work: Work) -> Result<(), AllocError> {
        match work {
            Work::Info | Work::Execution | Work::Idle => {}
            Work::Fetch => self.request_often(alloc)?,
            Work::Slice => self.begin(alloc, ENDLESS)?,
            Work::Wait => self.begin(alloc, WAITING)?,
        }
        Ok(())
    }

    // Begins with a cell: it is loaded, started, and runs for a slice.
    fn begin(&mut self, alloc: Global, cell: &'static str) -> Result<(), AllocError> {
        arrive(alloc, &mut self.kernel, Question::Execute(cell))?;
        self.slices(3);
        Ok(())
    }

    fn request_often(&mut self, alloc: Global) -> Result<(), AllocError> {
        for _ in 0..22 {
            arrive(alloc, &mut self.kernel, Question::KernelInfo)?;
        }
        Ok(())
    }

    // How many of so many slices were accepted.
    fn slices(&mut self, count: u64) -> u64 {
        let mut made = 0u64;
        for _ in 0..count {
            if slice(&mut self.kernel) {
                made = made.saturating_add(1);
            }
        }
        made
    }

    // Fetches from a number on. How many posts there were, and the number to go on from.
    fn fetch_from(&mut self, from: u64) -> (u64, u64) {
        let reply = fetch(&mut self.kernel, from);
        let counted = count_posts(&reply, from);
        drop(reply);
        counted
    }

    // Fetches from the frontend's place on. How many posts there were.
    fn fetch_next(&mut self) -> u64 {
        let (count, next) = self.fetch_from(self.from);
        self.from = next;
        count
    }

    // Fetches from the frontend's place on, and renders the posts. How many frames they have.
    fn render_next(&mut self, alloc: Global) -> Result<u64, AllocError> {
        let reply = fetch(&mut self.kernel, self.from);
        let rendered = render_posts(alloc, &reply, self.from);
        drop(reply);
        let (frames, next) = rendered?;
        self.from = next;
        Ok(frames)
    }

    // One unit of work: how many frames, posts or slices it gave.
    fn unit(&mut self, alloc: Global, work: Work) -> Result<u64, AllocError> {
        match work {
            Work::Info => {
                arrive(alloc, &mut self.kernel, Question::KernelInfo)?;
                self.render_next(alloc)
            }
            Work::Execution => {
                arrive(alloc, &mut self.kernel, Question::Execute(SHORT))?;
                self.slices(3);
                Ok(self.fetch_next())
            }
            Work::Fetch => Ok(self.fetch_from(1).0),
            Work::Slice | Work::Wait | Work::Idle => Ok(self.slices(1)),
        }
    }

    /// So many units: how much they gave together.
    pub fn units(&mut self, alloc: Global, work: Work, count: u64) -> Result<u64, AllocError> {
        let mut made = 0u64;
        for _ in 0..count {
            made = made.saturating_add(self.unit(alloc, work)?);
        }
        Ok(made)
    }
}
