! A small field through libgwizdorad.so, by iso_c_binding: what Fortran has to declare, and the helpers as symbols.
module gwizdorad
    use, intrinsic :: iso_c_binding
    implicit none
    interface
        function gwz_pack32(level, mode, k, group, values, n, out, room) bind(c) result(r)
            import
            integer(c_int32_t), value :: level, mode, k, group
            integer(c_size_t), value :: n, room
            integer(c_int32_t), intent(in) :: values(n)
            integer(c_int8_t), intent(inout) :: out(room)
            integer(c_int64_t) :: r
        end function
        function gwz_unpack32(level, bytes, length, out, room) bind(c) result(r)
            import
            integer(c_int32_t), value :: level
            integer(c_size_t), value :: length, room
            integer(c_int8_t), intent(in) :: bytes(length)
            integer(c_int32_t), intent(inout) :: out(room)
            integer(c_int64_t) :: r
        end function
        function gwz_check(level, bytes, length) bind(c) result(r)
            import
            integer(c_int32_t), value :: level
            integer(c_size_t), value :: length
            integer(c_int8_t), intent(in) :: bytes(length)
            integer(c_int64_t) :: r
        end function
        function gwz_add_summary(level, bytes, length, out, room) bind(c) result(r)
            import
            integer(c_int32_t), value :: level
            integer(c_size_t), value :: length, room
            integer(c_int8_t), intent(in) :: bytes(length)
            integer(c_int8_t), intent(inout) :: out(room)
            integer(c_int64_t) :: r
        end function
        function gwz_test_summary(level, bytes, length) bind(c) result(r)
            import
            integer(c_int32_t), value :: level
            integer(c_size_t), value :: length
            integer(c_int8_t), intent(in) :: bytes(length)
            integer(c_int64_t) :: r
        end function
        function gwz_chunks_from32(level, x, bytes, length, out, room) bind(c) result(r)
            import
            integer(c_int32_t), value :: level, x
            integer(c_size_t), value :: length, room
            integer(c_int8_t), intent(in) :: bytes(length)
            integer(c_int32_t), intent(inout) :: out(room)
            integer(c_int64_t) :: r
        end function
        function gwz_tolerance_code32(halves, k, pattern, code) bind(c) result(r)
            import
            integer(c_int32_t), value :: halves, k, pattern
            integer(c_int32_t), intent(inout) :: code
            integer(c_int64_t) :: r
        end function
        function gwz_bound(width, tolerance) bind(c) result(r)
            import
            integer(c_int32_t), value :: width
            integer(c_int64_t), value :: tolerance
            integer(c_int64_t) :: r
        end function
        function gwz_refusal(answer) bind(c) result(r)
            import
            integer(c_int64_t), value :: answer
            integer(c_int32_t) :: r
        end function
        function gwz_answer(answer) bind(c) result(r)
            import
            integer(c_int64_t), value :: answer
            integer(c_int32_t) :: r
        end function
        function gwz_exponent(answer) bind(c) result(r)
            import
            integer(c_int64_t), value :: answer
            integer(c_int32_t) :: r
        end function
        function gwz_longest_stream(width, group, n) bind(c) result(r)
            import
            integer(c_int32_t), value :: width, group
            integer(c_size_t), value :: n
            integer(c_size_t) :: r
        end function
        function gwz_summary_bytes(width, n) bind(c) result(r)
            import
            integer(c_int32_t), value :: width
            integer(c_size_t), value :: n
            integer(c_size_t) :: r
        end function
        function gwz_highest_level() bind(c) result(r)
            import
            integer(c_int32_t) :: r
        end function
        function gwz_refusal_text(number) bind(c) result(r)
            import
            integer(c_int32_t), value :: number
            type(c_ptr) :: r
        end function
        function gwz_version() bind(c) result(r)
            import
            type(c_ptr) :: r
        end function
        function c_strlen(text) bind(c, name='strlen') result(r)
            import
            type(c_ptr), value :: text
            integer(c_size_t) :: r
        end function
    end interface
contains
    function text_of(address) result(text)
        type(c_ptr), intent(in) :: address
        character(:), allocatable :: text
        character(kind=c_char), pointer :: letters(:)
        integer :: i
        call c_f_pointer(address, letters, [c_strlen(address)])
        allocate (character(size(letters)) :: text)
        do i = 1, size(letters)
            text(i:i) = letters(i)
        end do
    end function
end module

program field
    use gwizdorad
    implicit none
    integer, parameter :: cells = 5
    integer(c_int32_t), parameter :: lossless = 0, no_k = 0, groups_of_32 = 32, groups_of_128 = 128, away = 0, to_even = 1
    real(c_float) :: levels(cells) = [1.8125, 1.8203, -0.0, 0.0, 1.8295]
    integer(c_int32_t) :: patterns(cells), back(cells), level, chunks(1) = 9, code = 9
    integer(c_int8_t), allocatable :: stream(:), copy(:)
    integer(c_int64_t) :: answer
    integer(c_size_t) :: length
    integer :: failures = 0

    level = gwz_highest_level()
    patterns = transfer(levels, patterns)
    allocate (stream(gwz_longest_stream(32_c_int32_t, groups_of_32, int(cells, c_size_t))))
    answer = gwz_pack32(level, lossless, no_k, groups_of_32, patterns, int(cells, c_size_t), stream, size(stream, kind=c_size_t))
    call expect('packed', gwz_refusal(answer) == 0)
    length = gwz_answer(answer)
    answer = gwz_unpack32(level, stream, length, back, int(cells, c_size_t))
    call expect('unpacked', answer == cells)
    call expect('the same bit for bit', all(patterns == back))
    answer = gwz_check(level, stream, length - 1)
    call expect('a cut stream is refused', gwz_refusal(answer) == 8)
    call expect('with a sentence', index(text_of(gwz_refusal_text(gwz_refusal(answer))), 'cut') > 0)
    allocate (copy(length + gwz_summary_bytes(32_c_int32_t, int(cells, c_size_t))))
    answer = gwz_add_summary(level, stream, length, copy, size(copy, kind=c_size_t))
    call expect('a summary added', answer == size(copy))
    answer = gwz_test_summary(level, copy, size(copy, kind=c_size_t))
    call expect('and tested', answer == cells)
    answer = gwz_chunks_from32(level, transfer(1.8203, level), copy, size(copy, kind=c_size_t), chunks, 1_c_size_t)
    call expect('a chunk from 1.8203 on', answer == 1 .and. chunks(1) == 0)
    answer = gwz_pack32(level, lossless, no_k, groups_of_128, patterns, int(cells, c_size_t), stream, size(stream, kind=c_size_t))
    call expect('in groups of 128', answer == length .and. stream(18) == 1)
    back = 9
    answer = gwz_unpack32(level, stream, length, back, int(cells, c_size_t))
    call expect('and unpacked', answer == cells .and. all(patterns == back))
    answer = gwz_bound(32_c_int32_t, transfer(0.005_c_double, answer))
    call expect('the exponent of 0.005 is -8', gwz_exponent(answer) == -8)
    answer = gwz_tolerance_code32(away, -2_c_int32_t, transfer(0.25, level), code)
    call expect('half a bin away from zero', answer == 0 .and. code == 2)
    answer = gwz_tolerance_code32(to_even, -2_c_int32_t, transfer(0.25, level), code)
    call expect('and to even', answer == 0 .and. code == 0)
    print '(i0, a, i0, a, a)', cells, ' cells in ', length, ' bytes and back, version ', text_of(gwz_version())
    if (failures /= 0) error stop 1
contains
    subroutine expect(what, holds)
        character(*), intent(in) :: what
        logical, intent(in) :: holds
        if (holds) return
        print '(a, a)', 'not so: ', what
        failures = failures + 1
    end subroutine
end program
