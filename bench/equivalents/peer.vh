// What the sinks share. A sink writes the head line and then rows, each LATE nanoseconds behind the time that it says.
// With Verilator a function of run.cpp writes the rows, since $write would take most of a run.
integer shown = -1;
reg [63:0] stop;

`ifdef VERILATOR
import "DPI-C" function void put_row(input longint count, input int digits, input int value, input int bits);
`endif

// Has %t show the time of a row, count / 10^digits s, without needless zeros.
task show_time(input integer count, input integer digits);
    begin
        while (digits > 0 && count % 10 == 0) begin
            count = count / 10;
            digits = digits - 1;
        end
        if (digits != shown)
            $timeformat(0, digits, "", 0);
        shown = digits;
    end
endtask

initial begin
    if (!$value$plusargs("stop=%d", stop))
        $finish(0);
    $write("%%time %0s\n", LABEL);
    // Of a delay that is a real number Verilator keeps 32 bits, so the long one is whole.
    #(stop + LATE - 1) #0.5 $finish(0);
end
