// Drives a debug adapter with Google's types of the protocol. Each message is decoded into the struct of its command or event; a member that
// the struct doesn't have is a fault. Usage: strict ADAPTER [WORD..] SOURCE LINE. Prints nothing if all is well.
package main

import (
	"bufio"
	"bytes"
	"encoding/json"
	"fmt"
	"os"
	"os/exec"
	"reflect"
	"strconv"

	"github.com/google/go-dap"
)

type client struct {
	in   *bufio.Reader
	out  interface{ Write([]byte) (int, error) }
	seq  int
	kept []dap.Message
}

func demand(holds bool, why ...interface{}) {
	if !holds {
		fmt.Println(why...)
		os.Exit(1)
	}
}

// read returns the next message.
func (c *client) read() dap.Message {
	content, err := dap.ReadBaseMessage(c.in)
	demand(err == nil, "no message:", err)
	message, err := dap.DecodeProtocolMessage(content)
	demand(err == nil, err, string(content))
	strict := json.NewDecoder(bytes.NewReader(content))
	strict.DisallowUnknownFields()
	err = strict.Decode(reflect.New(reflect.TypeOf(message).Elem()).Interface())
	demand(err == nil, err, string(content))
	return message
}

// ask returns the response to a request, which must succeed. It keeps the events before the response.
func (c *client) ask(request dap.Message) dap.Message {
	c.seq++
	of := reflect.ValueOf(request).Elem()
	of.FieldByName("Seq").SetInt(int64(c.seq))
	of.FieldByName("Type").SetString("request")
	demand(dap.WriteProtocolMessage(c.out, request) == nil, "not written")
	for {
		got := c.read()
		if response, ok := got.(dap.ResponseMessage); ok {
			body := response.GetResponse()
			demand(body.RequestSeq == c.seq && body.Success, body.Command, body.Message)
			return got
		}
		c.kept = append(c.kept, got)
	}
}

func (c *client) event(name string) dap.Message {
	for {
		var got dap.Message
		if len(c.kept) > 0 {
			got, c.kept = c.kept[0], c.kept[1:]
		} else {
			got = c.read()
		}
		if event, ok := got.(dap.EventMessage); ok && event.GetEvent().Event == name {
			return got
		}
	}
}

// stopped waits until the run stops for a reason, and returns the thread and its first frame.
func (c *client) stopped(reason string) (int, dap.StackFrame) {
	body := c.event("stopped").(*dap.StoppedEvent).Body
	demand(body.Reason == reason, "stopped for", body.Reason, "instead of", reason)
	arguments := dap.StackTraceArguments{ThreadId: body.ThreadId}
	trace := c.ask(&dap.StackTraceRequest{Request: of("stackTrace"), Arguments: arguments}).(*dap.StackTraceResponse)
	return body.ThreadId, trace.Body.StackFrames[0]
}

func of(command string) dap.Request { return dap.Request{Command: command} }

func main() {
	words := os.Args[1 : len(os.Args)-2]
	source := os.Args[len(os.Args)-2]
	line, _ := strconv.Atoi(os.Args[len(os.Args)-1])
	server := exec.Command(words[0], words[1:]...)
	server.Stderr = os.Stderr
	in, _ := server.StdinPipe()
	out, _ := server.StdoutPipe()
	demand(server.Start() == nil, "not started")
	c := &client{in: bufio.NewReader(out), out: in}

	begins := dap.InitializeRequestArguments{AdapterID: "ga144", LinesStartAt1: true, ColumnsStartAt1: true, PathFormat: "path"}
	able := c.ask(&dap.InitializeRequest{Request: of("initialize"), Arguments: begins}).(*dap.InitializeResponse).Body
	program, _ := json.Marshal(map[string]interface{}{"program": source})
	c.ask(&dap.LaunchRequest{Request: of("launch"), Arguments: program})
	c.event("initialized")
	lines := dap.SetBreakpointsArguments{Source: dap.Source{Path: source}, Breakpoints: []dap.SourceBreakpoint{{Line: line}}}
	set := c.ask(&dap.SetBreakpointsRequest{Request: of("setBreakpoints"), Arguments: lines}).(*dap.SetBreakpointsResponse)
	demand(set.Body.Breakpoints[0].Verified && set.Body.Breakpoints[0].Line == line, "no breakpoint on line", line)
	c.ask(&dap.ConfigurationDoneRequest{Request: of("configurationDone")})
	c.stopped("entry")
	c.ask(&dap.ContinueRequest{Request: of("continue"), Arguments: dap.ContinueArguments{ThreadId: 1000}})
	thread, frame := c.stopped("breakpoint")
	demand(frame.Line == line, "stopped on line", frame.Line)
	c.ask(&dap.NextRequest{Request: of("next"), Arguments: dap.NextArguments{ThreadId: thread}})
	_, ahead := c.stopped("step")
	demand(ahead.Line > 0, "no line after a step")
	if able.SupportsStepBack {
		c.ask(&dap.StepBackRequest{Request: of("stepBack"), Arguments: dap.StepBackArguments{ThreadId: thread}})
		c.event("output")
		_, back := c.stopped("step")
		demand(back.Line == frame.Line, "back on line", back.Line)
	}
	threads := c.ask(&dap.ThreadsRequest{Request: of("threads")}).(*dap.ThreadsResponse).Body.Threads
	demand(len(threads) == 8, len(threads), "threads")
	scopes := c.ask(&dap.ScopesRequest{Request: of("scopes"), Arguments: dap.ScopesArguments{FrameId: frame.Id}}).(*dap.ScopesResponse).Body.Scopes
	for _, scope := range scopes {
		arguments := dap.VariablesArguments{VariablesReference: scope.VariablesReference}
		variables := c.ask(&dap.VariablesRequest{Request: of("variables"), Arguments: arguments}).(*dap.VariablesResponse).Body.Variables
		demand(len(variables) > 4, "too few variables of", scope.Name)
	}
	count := dap.EvaluateArguments{Expression: "count", Context: "repl"}
	demand(c.ask(&dap.EvaluateRequest{Request: of("evaluate"), Arguments: count}).(*dap.EvaluateResponse).Body.Result != "", "no count")
	if able.SupportsDisassembleRequest {
		cells := dap.DisassembleArguments{MemoryReference: frame.InstructionPointerReference, InstructionCount: 4}
		instructions := c.ask(&dap.DisassembleRequest{Request: of("disassemble"), Arguments: cells}).(*dap.DisassembleResponse).Body.Instructions
		demand(len(instructions) == 4, len(instructions), "instructions")
	}
	if able.SupportsExceptionInfoRequest {
		c.ask(&dap.ExceptionInfoRequest{Request: of("exceptionInfo"), Arguments: dap.ExceptionInfoArguments{ThreadId: thread}})
	}
	c.ask(&dap.DisconnectRequest{Request: of("disconnect")})
	in.Close()
	demand(server.Wait() == nil, "its status is not 0")
}
