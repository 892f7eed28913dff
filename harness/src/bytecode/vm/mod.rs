//! Shim: the VM, as far as the published async_exec.rs and scheduler.rs look at it. Frames are
//! stand-ins and no bytecode runs: the driver says what the loaded task does next.

use std::mem;

use crate::{
    asyncio::CallId,
    exception_private::{RunError, RunResult},
    heap::{ContainsHeap, DropWithContext, Heap, HeapId, HeapReader},
    intern::{Code, FunctionId, Interns, StringId},
    value::Value,
};

// the published async_exec.rs and scheduler.rs
include!(concat!(env!("OUT_DIR"), "/vm.rs"));

use scheduler::Scheduler;

mod exceptions {
    use crate::{
        heap::{ContainsHeap, DropWithContext},
        value::Value,
    };

    /// Never made: no handler runs here.
    #[derive(Debug)]
    #[allow(dead_code)]
    pub(crate) enum CaughtException {
        Value(Value),
    }

    impl<C: ContainsHeap> DropWithContext<C> for CaughtException {
        fn drop_with(self, ctx: &mut C) {
            let Self::Value(value) = self;
            value.drop_with(ctx);
        }
    }
}

mod recursion {
    use crate::intern::{FunctionId, Interns};

    /// No recursion limit here, so nothing to count.
    pub(crate) fn frame_recursion_depth(_frames: impl Iterator<Item = Option<FunctionId>>, _: &Interns) -> usize {
        0
    }
}

#[derive(Debug)]
pub(crate) struct FrameNamespace;

impl<C> DropWithContext<C> for FrameNamespace {
    fn drop_with(self, _: &mut C) {}
}

pub(crate) enum Opcode {
    Await,
}

/// What an await or a task's end tells the run loop.
pub(crate) enum AwaitResult {
    ValueReady(Value),
    FramePushed,
    Yield(Vec<CallId>),
}

/// What a run ends with. `Runs` and `Raised` stand where the original would run bytecode.
pub(crate) enum FrameExit {
    ResolveFutures(Vec<CallId>),
    Runs,
    Raised(RunError),
}

#[derive(Debug)]
#[allow(dead_code)]
pub(crate) struct CallFrame<'h> {
    pub code: &'h Code,
    pub bytecode: &'h [u8],
    pub ip: usize,
    pub stack_base: u32,
    pub locals_count: u16,
    pub exception_stack_base: u32,
    pub function_id: Option<FunctionId>,
    pub call_offset: Option<u32>,
    pub should_return: bool,
    pub is_parked: bool,
    pub namespace: Option<Box<FrameNamespace>>,
    pub is_initializer: bool,
    pub import_from_module: Option<StringId>,
}

impl<'h> CallFrame<'h> {
    fn module(code: &'h Code) -> Self {
        Self {
            code,
            bytecode: code.bytecode(),
            ip: 0,
            stack_base: 0,
            locals_count: 0,
            exception_stack_base: 0,
            function_id: None,
            call_offset: None,
            should_return: false,
            is_parked: false,
            namespace: None,
            is_initializer: false,
            import_from_module: None,
        }
    }

    pub fn new_function(
        code: &'h Code,
        stack_base: usize,
        locals_count: u16,
        exception_stack_base: usize,
        function_id: FunctionId,
        call_offset: Option<u32>,
        namespace: Option<Box<FrameNamespace>>,
    ) -> Self {
        Self {
            stack_base: stack_index(stack_base),
            locals_count,
            exception_stack_base: stack_index(exception_stack_base),
            function_id: Some(function_id),
            call_offset,
            namespace,
            ..Self::module(code)
        }
    }

    fn stack_base(&self) -> usize {
        self.stack_base as usize
    }

    fn exception_stack_base(&self) -> usize {
        self.exception_stack_base as usize
    }
}

fn stack_index(index: usize) -> u32 {
    u32::try_from(index).expect("stack index exceeds u32")
}

fn frame_code<'h>(interns: &'h Interns, module_code: &'h Code, function_id: Option<FunctionId>) -> &'h Code {
    function_id.map_or(module_code, |id| &interns.get_function(id).code)
}

fn function_namespace(_globals: Option<HeapId>, _heap: &Heap) -> Option<Box<FrameNamespace>> {
    None
}

pub(crate) struct VM<'h> {
    pub heap: &'h mut HeapReader<'h>,
    pub scheduler: Scheduler,
    pub stack: Vec<Value>,
    pub current_frame: CallFrame<'h>,
    suspended_frames: Vec<CallFrame<'h>>,
    exception_stack: Vec<exceptions::CaughtException>,
    instruction_ip: usize,
    recursion_depth: usize,
    interns: &'h Interns,
    module_code: &'h Code,
}

impl<'h> VM<'h> {
    pub fn new(heap: &'h mut HeapReader<'h>, interns: &'h Interns, module_code: &'h Code) -> Self {
        Self {
            heap,
            scheduler: Scheduler::new(),
            stack: Vec::new(),
            current_frame: CallFrame::module(module_code),
            suspended_frames: Vec::new(),
            exception_stack: Vec::new(),
            instruction_ip: 0,
            recursion_depth: 0,
            interns,
            module_code,
        }
    }

    pub fn push(&mut self, value: Value) {
        self.stack.push(value);
    }

    pub fn pop(&mut self) -> Value {
        self.stack.pop().expect("pop of an empty stack")
    }

    fn push_frame(&mut self, frame: CallFrame<'h>) -> RunResult<()> {
        let caller = mem::replace(&mut self.current_frame, frame);
        self.suspended_frames.push(caller);
        Ok(())
    }

    fn current_offset(&self) -> Option<u32> {
        None
    }

    pub fn allocate_call_id(&mut self) -> CallId {
        self.scheduler.allocate_call_id()
    }

    /// Discards the loaded context and leaves a parked frame in its place.
    pub fn cleanup_current_task(&mut self) {
        mem::take(&mut self.stack).drop_with(self);
        mem::take(&mut self.exception_stack).drop_with(self);
        let parked = CallFrame {
            is_parked: true,
            ..CallFrame::module(self.module_code)
        };
        let current = mem::replace(&mut self.current_frame, parked);
        for frame in mem::take(&mut self.suspended_frames).into_iter().chain([current]) {
            frame.namespace.drop_with(self);
        }
    }

    fn run_external(&mut self) -> RunResult<FrameExit> {
        Ok(FrameExit::Runs)
    }

    fn resume_with_exception(&mut self, error: RunError) -> RunResult<FrameExit> {
        Ok(FrameExit::Raised(error))
    }

    // Doors for the driver: these three are visible to the VM's own modules only.

    pub fn oracle_await(&mut self) -> RunResult<AwaitResult> {
        self.exec_get_awaitable()
    }

    pub fn oracle_complete(&mut self, result: Value) -> RunResult<AwaitResult> {
        self.handle_task_completion(result)
    }

    pub fn oracle_fail(&mut self, error: RunError) -> RunResult<()> {
        self.handle_task_failure(error)
    }
}

impl ContainsHeap for VM<'_> {
    fn heap(&self) -> &Heap {
        self.heap
    }
    fn heap_mut(&mut self) -> &mut Heap {
        self.heap
    }
}
