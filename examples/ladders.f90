! Lists the ladders of a file of pairs in batches of 64, from Fortran. docs/LINKING.md shows how it is built and what it writes.
!
! The numbers are those of include/ragymolev.h, and tools/python-layout compares them. A word of C has no sign; here it is a
! number with one and of the same bits, which btest looks at. A piece of lent memory goes as the array and its length, a number
! by value.
module ragymolev
    use, intrinsic :: iso_c_binding, only: c_int8_t, c_int64_t, c_size_t
    implicit none
    integer(c_int64_t), parameter :: RG_BUDGET = 1000000, RG_END = 3
    integer, parameter :: RG_FILE_BYTES = 65536, RG_MOST = 64
    integer, parameter :: RG_TABLE_GAUGES = 0, RG_BATCH_OUTCOME = 0, RG_BATCH_LADDERS = 1, RG_BATCH_MOVES = 2
    integer(c_size_t), parameter :: RG_TABLE_WORDS = 66, RG_ORDER_WORDS = 64, RG_RUN_WORDS = 199, RG_BATCH_WORDS = 3

    interface
        function rg_read(file, file_length, table, table_length) result(refusal) bind(C)
            import :: c_int8_t, c_int64_t, c_size_t
            integer(c_int8_t), intent(in) :: file(*)
            integer(c_size_t), value :: file_length, table_length
            integer(c_int64_t), intent(inout) :: table(*)
            integer(c_int64_t) :: refusal
        end function
        function rg_start_gauges(table, table_length, order, order_length, omit, run, run_length) result(refusal) bind(C)
            import :: c_int64_t, c_size_t
            integer(c_int64_t), intent(in) :: table(*), order(*)
            integer(c_size_t), value :: table_length, order_length, run_length
            integer(c_int64_t), value :: omit
            integer(c_int64_t), intent(inout) :: run(*)
            integer(c_int64_t) :: refusal
        end function
        function rg_list_gauges(run, run_length, budget, batch, batch_length) result(refusal) bind(C)
            import :: c_int64_t, c_size_t
            integer(c_int64_t), intent(inout) :: run(*), batch(*)
            integer(c_size_t), value :: run_length, batch_length
            integer(c_int64_t), value :: budget
            integer(c_int64_t) :: refusal
        end function
    end interface
end module

program ladders
    use, intrinsic :: iso_c_binding, only: c_int8_t, c_int64_t, c_size_t
    use ragymolev
    implicit none
    integer(c_size_t), parameter :: most = 64
    integer(c_int64_t), parameter :: every_ladder = 0
    integer(c_int8_t) :: file(RG_FILE_BYTES + 1)
    integer(c_int64_t) :: table(0:RG_TABLE_WORDS - 1), order(RG_ORDER_WORDS), run(RG_RUN_WORDS)
    integer(c_int64_t) :: batch(0:RG_BATCH_WORDS + most * RG_MOST - 1)
    integer(c_int64_t) :: gauges, i, first

    call accept(rg_read(file, file_bytes(), table, RG_TABLE_WORDS))
    gauges = table(RG_TABLE_GAUGES)
    order = 0
    order(:gauges) = [(i, i = 1, gauges)]
    call accept(rg_start_gauges(table, RG_TABLE_WORDS, order, RG_ORDER_WORDS, every_ladder, run, RG_RUN_WORDS))
    do
        call accept(rg_list_gauges(run, RG_RUN_WORDS, RG_BUDGET, batch, RG_BATCH_WORDS + most * gauges))
        print '(i0, a, i0, a)', batch(RG_BATCH_LADDERS), ' ladders, ', batch(RG_BATCH_MOVES), ' moves'
        do i = 0, batch(RG_BATCH_LADDERS) - 1
            first = RG_BATCH_WORDS + i * gauges
            call show(batch(first:first + gauges - 1))
        end do
        if (batch(RG_BATCH_OUTCOME) == RG_END) exit
    end do

contains

    ! Reads the file that the first word names; how many bytes it has, one more than the longest file at most.
    function file_bytes() result(length)
        integer(c_size_t) :: length
        character(len=4096) :: name
        integer :: unit, status
        call get_command_argument(1, name)
        open (newunit=unit, file=trim(name), access='stream', form='unformatted', action='read', status='old', iostat=status)
        if (status /= 0) stop 1, quiet=.true.
        length = 0
        do while (length < size(file))
            read (unit, iostat=status) file(length + 1)
            if (status /= 0) exit
            length = length + 1
        end do
        close (unit)
    end function

    subroutine accept(refusal)
        integer(c_int64_t), intent(in) :: refusal
        if (refusal == 0) return
        print '(a, i0)', 'refused ', refusal
        stop 3, quiet=.true.
    end subroutine

    ! A ladder by its gauge rows, as pairs.
    subroutine show(rows)
        integer(c_int64_t), intent(in) :: rows(:)
        integer :: gauge, bit
        do gauge = 1, size(rows)
            do bit = 0, RG_MOST - 1
                if (btest(rows(gauge), bit)) write (*, '(a, i0, a, i0)', advance='no') ' ', gauge, ':', bit + 1
            end do
        end do
        print '()'
    end subroutine
end program
