// A client of SQS by the AWS SDK for Go, which compares the digests of bodies by itself; those of message attributes are
// compared here. It is run by check/clients, with the address of the gateway.
package main

import (
	"crypto/md5"
	"encoding/binary"
	"encoding/hex"
	"fmt"
	"hash"
	"os"
	"reflect"
	"sort"

	"github.com/aws/aws-sdk-go/aws"
	"github.com/aws/aws-sdk-go/aws/session"
	"github.com/aws/aws-sdk-go/service/sqs"
)

const batchSize = 10

var bodies = []string{
	"hello",
	"an é, a 漢 and a 🙂",
	"<angles> & \"quotes\"",
	"tabs\tand\r\nlines\n",
	" blanks ",
}

var attributes = map[string]*sqs.MessageAttributeValue{
	"text":   {DataType: aws.String("String"), StringValue: aws.String("an ö & <more>\n")},
	"number": {DataType: aws.String("Number"), StringValue: aws.String("-12.50")},
	"labels": {DataType: aws.String("String.custom"), StringValue: aws.String("x")},
	"bytes":  {DataType: aws.String("Binary"), BinaryValue: []byte{0, 1, 0xfe, 0xff}},
}

// digestOf is the MD5 over attributes in order of their names (Developer Guide, "Calculating the MD5 message digest for
// message attributes").
func digestOf(attributes map[string]*sqs.MessageAttributeValue) string {
	names := make([]string, 0, len(attributes))
	for name := range attributes {
		names = append(names, name)
	}
	sort.Strings(names)
	digest := md5.New()
	for _, name := range names {
		value := attributes[name]
		kind, data := byte(2), value.BinaryValue
		if value.StringValue != nil {
			kind, data = 1, []byte(*value.StringValue)
		}
		addCounted(digest, []byte(name))
		addCounted(digest, []byte(*value.DataType))
		digest.Write([]byte{kind})
		addCounted(digest, data)
	}
	return hex.EncodeToString(digest.Sum(nil))
}

func addCounted(digest hash.Hash, data []byte) {
	var count [4]byte
	binary.BigEndian.PutUint32(count[:], uint32(len(data)))
	digest.Write(count[:])
	digest.Write(data)
}

// compareDigests takes the digest of the attributes that an answer tells.
func compareDigests(told *string) error {
	if aws.StringValue(told) != digestOf(attributes) {
		return fmt.Errorf("the digest of the attributes %v, and not %v", aws.StringValue(told), digestOf(attributes))
	}
	return nil
}

// queue is one queue, and what a send to it names beside the message.
type queue struct {
	client *sqs.SQS
	url    *string
	group  *string
}

func newQueue(client *sqs.SQS, fifo bool) (*queue, error) {
	name, group := "checked", (*string)(nil)
	wanted := map[string]*string{"VisibilityTimeout": aws.String("3600")}
	if fifo {
		name, group = "checked.fifo", aws.String("g")
		wanted["FifoQueue"] = aws.String("true")
	}
	created, err := client.CreateQueue(&sqs.CreateQueueInput{QueueName: aws.String(name), Attributes: wanted})
	if err != nil {
		return nil, err
	}
	return &queue{client, created.QueueUrl, group}, nil
}

// deduplication gives the id of a send to a FIFO queue, and none for a standard one.
func (q *queue) deduplication(id string) *string {
	if q.group == nil {
		return nil
	}
	return aws.String(id)
}

func (q *queue) send(body string) error {
	sent, err := q.client.SendMessage(&sqs.SendMessageInput{
		QueueUrl: q.url, MessageBody: aws.String(body), MessageAttributes: attributes,
		MessageGroupId: q.group, MessageDeduplicationId: q.deduplication("alone"),
	})
	if err != nil {
		return err
	}
	return compareDigests(sent.MD5OfMessageAttributes)
}

func (q *queue) sendAll(bodies []string) error {
	entries := make([]*sqs.SendMessageBatchRequestEntry, 0, len(bodies))
	for place, body := range bodies {
		id := fmt.Sprint(place)
		entries = append(entries, &sqs.SendMessageBatchRequestEntry{
			Id: aws.String(id), MessageBody: aws.String(body), MessageAttributes: attributes,
			MessageGroupId: q.group, MessageDeduplicationId: q.deduplication(id),
		})
	}
	sent, err := q.client.SendMessageBatch(&sqs.SendMessageBatchInput{QueueUrl: q.url, Entries: entries})
	if err != nil {
		return err
	}
	if len(sent.Failed) > 0 {
		return fmt.Errorf("%v", sent.Failed)
	}
	for _, entry := range sent.Successful {
		if err := compareDigests(entry.MD5OfMessageAttributes); err != nil {
			return err
		}
	}
	return nil
}

func (q *queue) receive(wait int64) ([]*sqs.Message, error) {
	received, err := q.client.ReceiveMessage(&sqs.ReceiveMessageInput{
		QueueUrl: q.url, MaxNumberOfMessages: aws.Int64(batchSize), WaitTimeSeconds: aws.Int64(wait),
		MessageAttributeNames: aws.StringSlice([]string{"All"}),
	})
	if err != nil {
		return nil, err
	}
	return received.Messages, nil
}

// take compares a message with what was sent, and deletes it.
func (q *queue) take(message *sqs.Message, body string) error {
	if aws.StringValue(message.Body) != body {
		return fmt.Errorf("the body %q, and not %q", aws.StringValue(message.Body), body)
	}
	if !reflect.DeepEqual(message.MessageAttributes, attributes) {
		return fmt.Errorf("the attributes %v", message.MessageAttributes)
	}
	if err := compareDigests(message.MD5OfMessageAttributes); err != nil {
		return err
	}
	_, err := q.client.DeleteMessage(&sqs.DeleteMessageInput{QueueUrl: q.url, ReceiptHandle: message.ReceiptHandle})
	return err
}

// check sends a message and a batch, and takes all of them in the order of their sends.
func (q *queue) check() error {
	if err := q.send(bodies[0]); err != nil {
		return err
	}
	if err := q.sendAll(bodies[1:]); err != nil {
		return err
	}
	messages, err := q.receive(5)
	if err != nil {
		return err
	}
	if len(messages) != len(bodies) {
		return fmt.Errorf("%d messages of %d", len(messages), len(bodies))
	}
	for place, message := range messages {
		if err := q.take(message, bodies[place]); err != nil {
			return err
		}
	}
	if messages, err = q.receive(0); err == nil && len(messages) > 0 {
		err = fmt.Errorf("%v after all were deleted", messages)
	}
	return err
}

func checkBoth(endpoint string) error {
	opened, err := session.NewSession(&aws.Config{Endpoint: &endpoint, Region: aws.String("us-east-1")})
	if err != nil {
		return err
	}
	for _, fifo := range []bool{true, false} {
		queue, err := newQueue(sqs.New(opened), fifo)
		if err == nil {
			err = queue.check()
		}
		if err != nil {
			return fmt.Errorf("FIFO %v: %w", fifo, err)
		}
	}
	return nil
}

func main() {
	if err := checkBoth(os.Args[1]); err != nil {
		fmt.Fprintln(os.Stderr, "clients:", err)
		os.Exit(1)
	}
}
