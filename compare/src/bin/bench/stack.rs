//! How much stack a call uses: it runs on a thread whose stack is a painted
//! buffer, and what is no longer painted was used.

use std::ffi::c_void;

const PAINT: u8 = 0xA5;

/// Far more than a run takes, since nothing guards the buffer's end.
const STACK_BYTES: usize = 32 << 20;
const PAGE: usize = 4096;

/// pthread_attr_t, which is smaller.
#[repr(C, align(16))]
struct Attributes([u8; 128]);

extern "C" {
    fn pthread_attr_init(attributes: *mut Attributes) -> i32;
    fn pthread_attr_setstack(attributes: *mut Attributes, stack: *mut c_void, bytes: usize) -> i32;
    fn pthread_attr_destroy(attributes: *mut Attributes) -> i32;
    fn pthread_create(
        thread: *mut usize,
        attributes: *const Attributes,
        start: extern "C" fn(*mut c_void) -> *mut c_void,
        argument: *mut c_void,
    ) -> i32;
    fn pthread_join(thread: usize, result: *mut *mut c_void) -> i32;
}

extern "C" fn start(argument: *mut c_void) -> *mut c_void {
    // The argument is the work, which `painted_bytes_used` lends until the thread ends.
    let work = unsafe { &mut *argument.cast::<&mut dyn FnMut()>() };
    work();
    std::ptr::null_mut()
}

/// The bytes of stack that the work uses, less what a thread uses by itself.
pub fn bytes_used(work: &mut dyn FnMut()) -> usize {
    painted_bytes_used(work) - painted_bytes_used(&mut || {})
}

fn painted_bytes_used(mut work: &mut dyn FnMut()) -> usize {
    let mut buffer = vec![PAINT; STACK_BYTES + PAGE];
    let aligned = buffer.as_ptr().align_offset(PAGE);
    let stack = &mut buffer[aligned..aligned + STACK_BYTES];
    let argument: *mut &mut dyn FnMut() = &mut work;
    // The stack and the argument outlive the thread, which is joined here.
    unsafe {
        let mut attributes = Attributes([0; 128]);
        let mut thread = 0;
        assert_eq!(pthread_attr_init(&mut attributes), 0);
        let bottom = stack.as_mut_ptr().cast();
        assert_eq!(pthread_attr_setstack(&mut attributes, bottom, STACK_BYTES), 0);
        assert_eq!(pthread_create(&mut thread, &attributes, start, argument.cast()), 0);
        assert_eq!(pthread_join(thread, std::ptr::null_mut()), 0);
        assert_eq!(pthread_attr_destroy(&mut attributes), 0);
    }
    let painted = stack.iter().take_while(|&&byte| byte == PAINT).count();
    STACK_BYTES - painted
}
